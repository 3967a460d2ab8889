//! The reader and the Rust on the same lines in the same process. The script `bench` at the root
//! builds it and says how it is used.

#![allow(clippy::too_many_arguments)]

extern crate self as ast;

#[allow(dead_code)]
#[path = "../src/library.rs"]
mod library;
#[allow(dead_code)]
#[path = "../src/lines.rs"]
mod lines;
#[allow(dead_code)]
#[path = "../src/numbers.rs"]
mod numbers;
mod page;
#[allow(dead_code)]
#[path = "../src/parser.rs"]
mod parser;
#[allow(dead_code)]
#[path = "../src/rng.rs"]
mod rng;
mod rust_side;
#[path = "../src/sources.rs"]
mod sources;
#[allow(dead_code)]
mod stand_in;
#[allow(dead_code)]
#[path = "../src/unreached.rs"]
mod unreached;

use sources::*;
pub use unreached::CellContentStyle;

use std::hint::black_box;
use std::process::ExitCode;
use std::time::{Duration, Instant};

use library::{Library, Reader};
use lines::LineBuf;
use page::Measured;
use rust_side::{ANCHOR_ENTRIES, AnchorEntry, ENTRIES, Entry, Lent, Mode, NORMAL, ROW};
use stand_in::Bump;

/// 64 tokens fit the main reader's small array of commas, and 256 the viewer's; 65 and 257 do not.
const LENGTHS: [usize; 10] = [3, 8, 20, 64, 65, 100, 256, 257, 1000, 4096];
const OF_THE_VIEWER: [usize; 4] = [3, 64, 65, 256];

/// An id alone, an id and a text of two words, and long texts.
const OF_ANCHORS: [usize; 5] = [3, 7, 64, 1000, 4096];

/// Attributes as report sheets have them, again and again.
const MIX: [&str; 10] = [
    "result",
    "edition=\"3, draft\"",
    "width=50",
    "title='Glucose, fasting'",
    "role=\"wide print\"",
    "unit=mmol",
    "Dr Smith",
    "opts=\"header,footer\"",
    "range=4-6",
    "note=taken at {place} by hand",
];

/// The first `tokens` − 1 tokens of the mix, and a closing bracket.
fn mix(tokens: usize) -> LineBuf {
    let mut text = String::new();
    let mut pieces = MIX.iter().cycle();
    loop {
        let whole = LineBuf::lex(&text);
        if whole.kinds.len() >= tokens - 1 {
            return closed(&whole, tokens);
        }
        // enough at once, so that a long line is not lexed from its start too often
        for _ in 0..1 + tokens / 8 {
            if !text.is_empty() {
                text.push(',');
            }
            text.push_str(pieces.next().unwrap());
        }
    }
}

fn closed(whole: &LineBuf, tokens: usize) -> LineBuf {
    let mut line = LineBuf::default();
    for place in 0..tokens - 1 {
        line.push(numbers::KINDS[whole.kinds[place] as usize], whole.lent().lexeme(place));
    }
    line.push(token::TokenKind::CloseBracket, b"]");
    line
}

fn repeated(text: &str, tokens: usize) -> LineBuf {
    closed(&LineBuf::lex(&text.repeat(tokens)), tokens)
}

/// An anchor's line: an id, behind a comma a text of words, as far as it has tokens for one, and two closing brackets.
fn anchor(tokens: usize) -> LineBuf {
    let text = if tokens > 3 { format!("glucose,{}", "fasting ".repeat(tokens)) } else { "glucose".into() };
    closed(&closed(&LineBuf::lex(&text), tokens - 1), tokens)
}

/// How long the Rust takes for a line, so many times. The lines stand in the arena before the clock starts; an answer is left in it.
fn of_the_rust<'b, T>(
    bump: &'b mut Bump,
    lent: Lent<'_>,
    many: usize,
    read: impl Fn(&mut line::Line<'b>, &'b Bump) -> T,
) -> Duration {
    bump.reset();
    let bump: &Bump = bump;
    let mut lines: Vec<_> = (0..many).map(|_| rust_side::line_of(lent, bump)).collect();
    let start = Instant::now();
    for line in &mut lines {
        std::mem::forget(black_box(read(line, bump)));
    }
    start.elapsed()
}

/// Times two calls in turn, each in batches; the fastest batch of each counts, since all that
/// another program on the machine can do is slow a batch down.
fn in_turn(
    mut ours: impl FnMut() -> Duration,
    mut theirs: impl FnMut() -> Duration,
    budget: Duration,
) -> (f64, f64) {
    let start = Instant::now();
    let (mut a, mut b) = (Duration::MAX, Duration::MAX);
    let mut rounds = 0;
    while rounds < 20 || start.elapsed() < budget {
        a = a.min(ours());
        b = b.min(theirs());
        rounds += 1;
    }
    (a.as_secs_f64() * 1e9, b.as_secs_f64() * 1e9)
}

struct Bench {
    library: Library,
    budget: Duration,
    bump: Bump,
    rows: Vec<u32>,
}

impl Bench {
    /// One entry of one reader on one line; None if it is not exported.
    fn list(&mut self, reader: Reader, entry: Entry, name: &'static str, line: &LineBuf) -> Option<Measured> {
        if !self.library.has_list(reader, entry) {
            return None;
        }
        let tokens = line.kinds.len();
        self.same_answer(reader, entry, line.lent());
        let many = (2048 / tokens).max(1);
        let (library, rows) = (&self.library, &mut self.rows);
        let ours = || {
            let start = Instant::now();
            for _ in 0..many {
                black_box(library.list(reader, entry, black_box(line.lent()), rows, false));
            }
            start.elapsed()
        };
        let bump = &mut self.bump;
        let theirs = || of_the_rust(bump, line.lent(), many, |line, bump| rust_side::read(entry, line, bump));
        let (ours, theirs) = in_turn(ours, theirs, self.budget);
        Some(Measured {
            what: name,
            size: tokens,
            ours: ours / many as f64,
            theirs: Some(theirs / many as f64),
        })
    }

    /// Both read the line, consume as much and find as many attributes; else the times would
    /// be of different tasks.
    fn same_answer(&mut self, reader: Reader, entry: Entry, lent: Lent<'_>) {
        let given =
            self.library.list(reader, entry, lent, &mut self.rows, false).expect("the entry is exported");
        let mut line = rust_side::line_of(lent, &self.bump);
        let list = rust_side::read(entry, &mut line, &self.bump);
        let consumed = lent.kinds.len() - line.num_tokens();
        let noted = self.rows.chunks(ROW).take(given.rows).filter(|row| row[0] == 7).count();
        if (given.refusal, given.consumed, given.rows - noted) != (0, consumed, list.rows()) {
            eprintln!(
                "bench: {reader:?}, {entry:?}, {} tokens: the reader gives {given:?} ({noted} diagnostics), the Rust {} and {consumed} consumed",
                lent.kinds.len(),
                list.rows()
            );
            std::process::exit(1);
        }
    }

    /// The anchor of one line by one entry; None if it is not exported.
    fn anchor(&mut self, entry: AnchorEntry, line: &LineBuf) -> Option<Measured> {
        if !self.library.has_anchor(entry) {
            return None;
        }
        let tokens = line.kinds.len();
        let mut lent = line.clone();
        self.same_anchor(entry, &mut lent);
        let many = (2048 / tokens).max(1);
        let library = &self.library;
        let ours = || {
            let start = Instant::now();
            for _ in 0..many {
                black_box(library.anchor(entry, black_box(&mut lent), false));
            }
            start.elapsed()
        };
        let bump = &mut self.bump;
        let theirs =
            || of_the_rust(bump, line.lent(), many, |line, bump| rust_side::anchor(entry, line, bump));
        let (ours, theirs) = in_turn(ours, theirs, self.budget);
        let many = many as f64;
        Some(Measured {
            what: page::anchor_name(entry),
            size: tokens,
            ours: ours / many,
            theirs: Some(theirs / many),
        })
    }

    /// Both find an anchor, consume as much, and have a reference text or none.
    fn same_anchor(&mut self, entry: AnchorEntry, lent: &mut LineBuf) {
        let given = self.library.anchor(entry, lent, false).expect("the entry is exported");
        let mut line = rust_side::line_of(lent.lent(), &self.bump);
        let anchor = rust_side::anchor(entry, &mut line, &self.bump);
        let consumed = lent.kinds.len() - line.num_tokens();
        if (given.anchor, given.consumed, given.text_count != 0) != (1, consumed, anchor.reftext.is_some()) {
            eprintln!(
                "bench: an anchor of {} tokens, {entry:?}: the reader gives {given:?}",
                lent.kinds.len()
            );
            std::process::exit(1);
        }
    }

    fn is_block_attr_list(&mut self, line: &LineBuf) -> Option<Measured> {
        if !self.library.has_is_block_attr_list() {
            return None;
        }
        let tokens = line.kinds.len();
        let many = (2048 / tokens).max(64);
        self.bump.reset();
        let theirs_line = rust_side::line_of(line.lent(), &self.bump);
        let library = &self.library;
        let ours = || {
            let start = Instant::now();
            for _ in 0..many {
                black_box(library.is_block_attr_list(black_box(line.lent()), false));
            }
            start.elapsed()
        };
        let theirs = || {
            let start = Instant::now();
            for _ in 0..many {
                black_box(rust_side::is_block_attr_list(black_box(&theirs_line)));
            }
            start.elapsed()
        };
        let (ours, theirs) = in_turn(ours, theirs, self.budget);
        let many = many as f64;
        Some(Measured { what: "realistic mix", size: tokens, ours: ours / many, theirs: Some(theirs / many) })
    }

    /// A subs text, or no subs attribute, on the normal set; the Rust has no sheet mode, and stands
    /// beside it as it is.
    fn subs(&mut self, mode: Mode, name: &'static str, subs: Option<&str>) -> Option<Measured> {
        if !self.library.has_from_meta(mode) {
            return None;
        }
        let text = subs.unwrap_or("");
        let many = (4096 / text.len().max(1)).max(1);
        let library = &self.library;
        let ours = || {
            let start = Instant::now();
            for _ in 0..many {
                let bytes = black_box(text.as_bytes());
                black_box(library.from_meta(mode, black_box(NORMAL), black_box(subs.is_some()), bytes));
            }
            start.elapsed()
        };
        let normal = numbers::to_rust(NORMAL);
        let theirs = || {
            let start = Instant::now();
            for _ in 0..many {
                black_box(rust_side::from_meta(black_box(normal), black_box(text)));
            }
            start.elapsed()
        };
        let theirs_without = || {
            let start = Instant::now();
            for _ in 0..many {
                black_box(rust_side::from_no_meta(black_box(normal)));
            }
            start.elapsed()
        };
        let (ours, theirs) = match subs {
            Some(_) => in_turn(ours, theirs, self.budget),
            None => in_turn(ours, theirs_without, self.budget),
        };
        let many = many as f64;
        Some(Measured { what: name, size: text.len(), ours: ours / many, theirs: Some(theirs / many) })
    }
}

fn main() -> ExitCode {
    let args: Vec<String> = std::env::args().skip(1).collect();
    let [milliseconds, page, plot] = args.as_slice() else {
        eprintln!("usage: bench MILLISECONDS_A_CASE PAGE PLOT");
        return ExitCode::from(2);
    };
    let Ok(milliseconds) = milliseconds.parse() else {
        eprintln!("bench: {milliseconds} is no number of milliseconds");
        return ExitCode::from(2);
    };
    let mut bench = Bench {
        library: Library::linked(),
        budget: Duration::from_millis(milliseconds),
        bump: Bump::new(),
        rows: vec![0; ROW * 4096],
    };
    let mut tables = Vec::new();
    let mixes: Vec<LineBuf> = LENGTHS.iter().map(|tokens| mix(*tokens)).collect();
    let commas = repeated(",", 4096);
    let crossing = repeated("\",',", 4096);
    for entry in ENTRIES {
        let mut table: Vec<Measured> =
            mixes.iter().filter_map(|line| bench.list(Reader::Main, entry, "realistic mix", line)).collect();
        table.extend(bench.list(Reader::Main, entry, "all commas", &commas));
        table.extend(bench.list(Reader::Main, entry, "crossing quotes", &crossing));
        if entry == Entry::Link {
            let text = repeated("see the method ", 1000);
            table.extend(bench.list(Reader::Main, entry, "link text", &text));
        }
        tables.push((page::entry_name(entry), "token", table));
    }
    let of_viewer: Vec<LineBuf> = OF_THE_VIEWER.iter().map(|tokens| mix(*tokens)).collect();
    let mut table = Vec::new();
    for entry in ENTRIES {
        let name = page::entry_name(entry);
        table.extend(of_viewer.iter().filter_map(|line| bench.list(Reader::Viewer, entry, name, line)));
    }
    tables.push((page::VIEWER, "token", table));
    let anchors: Vec<LineBuf> = OF_ANCHORS.iter().map(|tokens| anchor(*tokens)).collect();
    let mut table = Vec::new();
    for entry in ANCHOR_ENTRIES {
        table.extend(anchors.iter().filter_map(|line| bench.anchor(entry, line)));
    }
    tables.push(("anchors", "token", table));
    let bracketed: Vec<LineBuf> = mixes
        .iter()
        .map(|line| {
            let mut with = LineBuf::default();
            with.push(token::TokenKind::OpenBracket, b"[");
            for place in 1..line.kinds.len() {
                with.push(numbers::KINDS[line.kinds[place] as usize], line.lent().lexeme(place));
            }
            with
        })
        .collect();
    let table = bracketed.iter().filter_map(|line| bench.is_block_attr_list(line)).collect();
    tables.push(("is_block_attr_list", "token", table));
    let many_parts = "quotes,-macros,attributes+,normal,".repeat(30);
    let longest = "post_replacements,".repeat(3640);
    let texts = [
        ("no subs attribute", None),
        ("one name", Some("quotes")),
        ("a group", Some("normal")),
        ("one more", Some("+attributes")),
        ("one less", Some("-quotes")),
        ("one in front", Some("attributes+")),
        ("two names", Some("quotes,macros")),
        ("three parts", Some("attributes+,+replacements,-callouts")),
        ("120 parts", Some(many_parts.as_str())),
        ("the longest text", Some(longest.as_str())),
    ];
    for (mode, name) in [
        (Mode::Port, "from_meta, port mode"),
        (Mode::Sheet, "from_meta, sheet mode (beside the Rust's only mode)"),
    ] {
        let table = texts.iter().filter_map(|(what, subs)| bench.subs(mode, what, *subs)).collect();
        tables.push((name, "byte", table));
    }
    tables.retain(|(_, _, table): &(_, _, Vec<Measured>)| !table.is_empty());
    if tables.is_empty() {
        eprintln!("bench: no function is exported yet: nothing to measure");
        return ExitCode::FAILURE;
    }
    let written = page::page(&tables);
    print!("{}", page::console(&tables));
    if let Err(e) = std::fs::write(page, written).and_then(|()| std::fs::write(plot, page::plot(&tables))) {
        eprintln!("bench: the results could not be written: {e}");
        return ExitCode::FAILURE;
    }
    ExitCode::SUCCESS
}
