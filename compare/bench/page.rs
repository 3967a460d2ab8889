//! The results as a page, as lines on the screen, and as a plot.

use std::fmt::Write as _;

use crate::rust_side::{AnchorEntry, Entry};

/// Nanoseconds a call.
pub struct Measured {
    pub what: &'static str,
    /// Tokens of a line, or bytes of a subs text.
    pub size: usize,
    pub ours: f64,
    pub theirs: Option<f64>,
}

impl Measured {
    fn each(&self) -> f64 {
        self.ours / self.size as f64
    }

    fn theirs_each(&self) -> Option<f64> {
        self.theirs.map(|t| t / self.size as f64)
    }

    fn ratio(&self) -> Option<f64> {
        self.theirs.map(|t| t / self.ours)
    }
}

pub type Table = (&'static str, &'static str, Vec<Measured>);

pub fn entry_name(entry: Entry) -> &'static str {
    match entry {
        Entry::Block => "parse_block_attr_list",
        Entry::BlockMacro => "parse_block_macro_attr_list",
        Entry::Inline => "parse_inline_macro_attr_list",
        Entry::Link => "parse_link_macro_attr_list",
    }
}

pub fn anchor_name(entry: AnchorEntry) -> &'static str {
    match entry {
        AnchorEntry::Block => "parse_block_anchor",
        AnchorEntry::Inline => "parse_inline_anchor",
    }
}

/// The name of the viewer's table.
pub const VIEWER: &str = "the small viewer, realistic mix";

fn is_list(name: &str) -> bool {
    name.starts_with("parse_")
}

fn number(n: f64) -> String {
    if n >= 1000.0 {
        let whole = format!("{n:.0}");
        let mut out = String::new();
        for (i, digit) in whole.chars().enumerate() {
            if i > 0 && (whole.len() - i) % 3 == 0 {
                out.push(',');
            }
            out.push(digit);
        }
        out
    } else if n >= 100.0 {
        format!("{n:.0}")
    } else if n >= 1.0 {
        format!("{n:.1}")
    } else {
        format!("{n:.3}")
    }
}

fn shown(n: Option<f64>) -> String {
    n.map_or("–".into(), number)
}

fn rows(table: &[Measured]) -> Vec<[String; 7]> {
    table
        .iter()
        .map(|m| {
            [
                m.what.to_string(),
                if m.size == 0 {
                    "0".into()
                } else {
                    number(m.size as f64).trim_end_matches(".0").to_string()
                },
                number(m.ours),
                shown(m.theirs),
                shown((m.size > 0).then(|| m.each())),
                shown(m.theirs_each().filter(|_| m.size > 0)),
                shown(m.ratio()),
            ]
        })
        .collect()
}

pub fn console(tables: &[Table]) -> String {
    let mut out = String::new();
    for (name, unit, table) in tables {
        let _ = writeln!(out, "{name}");
        let _ = writeln!(
            out,
            "  {:<28} {:>7} {:>12} {:>12} {:>9} {:>9} {:>7}",
            "",
            format!("{unit}s"),
            "ns reader",
            "ns Rust",
            format!("/{unit}"),
            format!("/{unit}"),
            "ratio"
        );
        for [what, size, ours, theirs, each, theirs_each, ratio] in rows(table) {
            let _ = writeln!(
                out,
                "  {what:<28} {size:>7} {ours:>12} {theirs:>12} {each:>9} {theirs_each:>9} {ratio:>7}"
            );
        }
    }
    out.push_str(&targets(tables).iter().fold(String::new(), |out, line| out + line + "\n"));
    out
}

/// The targets, met or missed, for the four readings and the subs texts.
fn targets(tables: &[Table]) -> Vec<String> {
    let lists: Vec<&Table> = tables.iter().filter(|(name, ..)| is_list(name)).collect();
    if lists.is_empty() {
        return vec!["None of the four readings is exported yet: no target can be judged.".into()];
    }
    let every = || lists.iter().flat_map(|(name, _, table)| table.iter().map(move |m| (*name, m)));
    // how many lines fall short of a ratio, and the one that does so most
    let short_of = |least: f64| {
        let short: Vec<(f64, String)> = every()
            .filter_map(|(name, m)| Some((m.ratio()?, format!("{name}, {}, {} tokens", m.what, m.size))))
            .filter(|(ratio, _)| *ratio < least)
            .collect();
        let worst = short.iter().min_by(|a, b| a.0.total_cmp(&b.0))?;
        let (all, ratio, words) = (every().count(), number(worst.0), &worst.1);
        Some(format!("{} of {all} lines, most by {words}: {ratio}", short.len()))
    };
    let (slow, slower) = (short_of(5.0), short_of(1.0));
    let mut bent = Vec::new();
    for (name, _, table) in &lists {
        let each: Vec<f64> =
            table.iter().filter(|m| m.what == "realistic mix" && m.size >= 20).map(Measured::each).collect();
        let (low, high) = each.iter().fold((f64::MAX, 0.0f64), |(l, h), n| (l.min(*n), h.max(*n)));
        if high > 1.5 * low {
            bent.push(format!("{name}: {} to {} ns per token", number(low), number(high)));
        }
    }
    let bent = (!bent.is_empty()).then(|| bent.join("; "));
    let verdict = |words: &str, missed: Option<String>| match missed {
        None => format!("{words}: met."),
        Some(missed) => format!("{words}: MISSED by {missed}."),
    };
    let texts = tables.iter().filter(|(name, ..)| name.starts_with("from_meta"));
    let slower_texts: Vec<String> = texts
        .flat_map(|(name, _, table)| table.iter().map(move |m| (*name, m)))
        .filter(|(_, m)| m.size > 0 && m.ratio().is_some_and(|ratio| ratio < 1.0))
        .map(|(name, m)| format!("{name}, {}: {}", m.what, number(m.ratio().unwrap_or(0.0))))
        .collect();
    let slower_texts = (!slower_texts.is_empty()).then(|| slower_texts.join("; "));
    vec![
        verdict("At least 5 times the Rust's speed on every line of the main reader's four readings", slow),
        verdict("ns per token on the mix flat within 1.5 from 20 to 4,096 tokens", bent),
        verdict("No line of the main reader's four readings on which the Rust is faster", slower),
        verdict("No subs text on which the Rust is faster", slower_texts),
    ]
}

fn first_line(command: &str, argument: &str) -> String {
    std::process::Command::new(command)
        .arg(argument)
        .output()
        .ok()
        .and_then(|out| String::from_utf8_lossy(&out.stdout).lines().next().map(str::to_string))
        .unwrap_or_else(|| "unknown".into())
}

fn processor() -> String {
    std::fs::read_to_string("/proc/cpuinfo")
        .ok()
        .and_then(|info| {
            let line = info.lines().find(|line| line.starts_with("model name"))?;
            Some(line.split(':').nth(1)?.trim().to_string())
        })
        .unwrap_or_else(|| "an unknown processor".into())
}

pub fn page(tables: &[Table]) -> String {
    let arena = option_env!("BENCH_ARENA").unwrap_or("an unknown arena");
    let rustc = option_env!("BENCH_RUSTC").unwrap_or("an unknown rustc");
    let kit = option_env!("BENCH_KIT").unwrap_or("an unknown kit");
    let mut out = format!(
        "# Benchmark

Written by `./bench`; measured on {}, {} ({rustc}). The library is that of {kit}.

The reader (`libtelfjost.a`, called through its C functions) and the Rust of asciidork-parser
0.38.2 (release build: -O, no debug assertions, no overflow checks), on the same lines, in the same
process, in turn. The Rust runs on its real arena, {arena}, with recorders off: what it would do
with the tokens of an attribute or of an anchor's reference text beyond reading the line (inline parsing,
messages, the map of named attributes) is left out of its time. So are making its line of tokens, dropping its answer, and the
arena's own growing, since the arena is warm. The reader is given nothing: its time has the checks
of the line (refusals 1 to 8, of an anchor 1 to 6 and 12) and the writing of the rows. No buffer is cleared between calls.

A time is that of the fastest of many batches of calls, on both sides. Ratio: the Rust's time
divided by the reader's.

",
        first_line("date", "+%Y-%m-%d"),
        processor()
    );
    if tables.iter().any(|(name, ..)| is_list(name)) {
        out.push_str("![ns per token against the length of a line](benchmark.svg)\n\n");
    }
    for line in targets(tables) {
        let _ = writeln!(out, "- {line}");
    }
    for (name, unit, table) in tables {
        let _ = write!(
            out,
            "\n## {name}\n\n| | {unit}s | ns a call, reader | ns a call, Rust | ns per {unit}, reader | ns per {unit}, Rust | ratio |\n|---|---:|---:|---:|---:|---:|---:|\n"
        );
        for row in rows(table) {
            let _ = writeln!(out, "| {} |", row.join(" | "));
        }
        if *name == "is_block_attr_list" {
            out.push_str(
                "\nThe Rust looks at four tokens of a line that it has made itself. The reader checks the whole\nline that it is lent (refusals 1 to 6), and that is its time.\n",
            );
        }
        if name.starts_with("from_meta") && name.contains("port") {
            out.push_str(FROM_META);
        }
    }
    out.push_str("\nWhere the time goes, what was changed and what was tried: SPEED.md.\n");
    out
}

const FROM_META: &str = "
On the normal set: one name is `quotes`, a group `normal`, one more `+attributes`, one less `-quotes`,
one in front `attributes+`, two names `quotes,macros`, three parts `attributes+,+replacements,-callouts`;
120 parts are `quotes,-macros,attributes+,normal,` thirty times, the longest text has `post_replacements`
3,640 times.

The Rust is handed a set that it has made itself. The reader checks the set that it is lent (10, and 11
in sheet mode), and a call with no subs attribute does little else.
";

// ---- the plot

const WIDTH: f64 = 900.0;
const HEIGHT: f64 = 520.0;
const LEFT: f64 = 70.0;
const RIGHT: f64 = 250.0;
const TOP: f64 = 40.0;
const BOTTOM: f64 = 60.0;
const COLOURS: [&str; 4] = ["#1b6ca8", "#2a9d5c", "#c2571a", "#8a3ea8"];

/// ns per token against tokens, both by powers, for the realistic mix: the reader's lines whole,
/// the Rust's broken.
pub fn plot(tables: &[Table]) -> String {
    let series: Vec<(String, &str, bool, Vec<(f64, f64)>)> = tables
        .iter()
        .filter(|(_, unit, _)| *unit == "token")
        .filter(|(name, ..)| is_list(name) || !tables.iter().any(|(name, ..)| is_list(name)))
        .enumerate()
        .flat_map(|(at, (name, _, table))| {
            let colour = COLOURS[at % COLOURS.len()];
            let mix = || table.iter().filter(|m| m.what == "realistic mix");
            let short = name.trim_start_matches("parse_").trim_end_matches("_attr_list");
            let ours = mix().map(|m| (m.size as f64, m.each())).collect();
            let theirs = mix().filter_map(|m| Some((m.size as f64, m.theirs_each()?))).collect();
            [
                (format!("{short}, reader"), colour, false, ours),
                (format!("{short}, Rust"), colour, true, theirs),
            ]
        })
        .collect();
    let values = || series.iter().flat_map(|(.., points)| points.iter().map(|(_, y)| *y));
    let low = 10f64.powf(values().fold(f64::MAX, f64::min).max(0.001).log10().floor());
    let high = 10f64.powf(values().fold(0.001, f64::max).log10().ceil());
    let x = |tokens: f64| LEFT + (WIDTH - LEFT - RIGHT) * (tokens / 2.0).log10() / (8192.0f64 / 2.0).log10();
    let y = |ns: f64| TOP + (HEIGHT - TOP - BOTTOM) * (1.0 - (ns / low).log10() / (high / low).log10());
    let mut out = format!(
        "<svg xmlns=\"http://www.w3.org/2000/svg\" width=\"{WIDTH}\" height=\"{HEIGHT}\" viewBox=\"0 0 {WIDTH} {HEIGHT}\" font-family=\"sans-serif\" font-size=\"13\">\n<rect width=\"100%\" height=\"100%\" fill=\"white\"/>\n<text x=\"{LEFT}\" y=\"24\" font-size=\"15\">ns per token against tokens of a line, realistic mix</text>\n"
    );
    let mut ns = low;
    while ns <= high * 1.001 {
        let at = y(ns);
        let _ = writeln!(
            out,
            "<line x1=\"{LEFT}\" x2=\"{:.1}\" y1=\"{at:.1}\" y2=\"{at:.1}\" stroke=\"#ddd\"/>\n<text x=\"{:.1}\" y=\"{:.1}\" text-anchor=\"end\">{}</text>",
            WIDTH - RIGHT,
            LEFT - 8.0,
            at + 4.0,
            if ns < 1.0 { ns.to_string() } else { number(ns).trim_end_matches(".0").to_string() }
        );
        ns *= 10.0;
    }
    // 65 and 257 stand too near to the lengths before them to be written
    for tokens in crate::LENGTHS.into_iter().filter(|tokens| ![65, 257].contains(tokens)) {
        let at = x(tokens as f64);
        let _ = writeln!(
            out,
            "<line x1=\"{at:.1}\" x2=\"{at:.1}\" y1=\"{TOP}\" y2=\"{:.1}\" stroke=\"#eee\"/>\n<text x=\"{at:.1}\" y=\"{:.1}\" text-anchor=\"middle\">{}</text>",
            HEIGHT - BOTTOM,
            HEIGHT - BOTTOM + 20.0,
            number(tokens as f64).trim_end_matches(".0")
        );
    }
    let _ = writeln!(
        out,
        "<text x=\"{:.1}\" y=\"{:.1}\" text-anchor=\"middle\">tokens</text>",
        (LEFT + WIDTH - RIGHT) / 2.0,
        HEIGHT - 16.0
    );
    // the names at the right stand where their lines end, pushed apart where they would touch
    let mut names: Vec<(f64, usize)> =
        series.iter().enumerate().filter_map(|(i, (.., points))| Some((y(points.last()?.1), i))).collect();
    names.sort_by(|a, b| a.0.total_cmp(&b.0));
    let mut least = TOP;
    for (at, i) in names {
        let (name, colour, broken, points) = &series[i];
        let path: Vec<String> = points.iter().map(|(t, n)| format!("{:.1},{:.1}", x(*t), y(*n))).collect();
        let dash = if *broken { " stroke-dasharray=\"6 4\"" } else { "" };
        let _ = writeln!(
            out,
            "<polyline fill=\"none\" stroke=\"{colour}\" stroke-width=\"2\"{dash} points=\"{}\"/>",
            path.join(" ")
        );
        for (t, n) in points {
            let _ =
                writeln!(out, "<circle cx=\"{:.1}\" cy=\"{:.1}\" r=\"3\" fill=\"{colour}\"/>", x(*t), y(*n));
        }
        let stands = at.max(least);
        least = stands + 16.0;
        let _ = writeln!(
            out,
            "<text x=\"{:.1}\" y=\"{:.1}\" fill=\"{colour}\">{name}</text>",
            x(points[points.len() - 1].0) + 12.0,
            stands + 4.0
        );
    }
    out.push_str("</svg>\n");
    out
}
