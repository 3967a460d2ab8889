//! Side by side: the Rust of asciidork-parser and the proved reader, on the same lines in the
//! same process. The script `run` builds it and says how it is used.

#![allow(clippy::too_many_arguments)]

extern crate self as ast;

mod anchor;
mod anchor_cases;
mod cases;
mod check;
mod differences;
mod explained;
mod library;
mod lines;
mod model;
mod numbers;
#[allow(dead_code)]
mod parser;
mod reading;
mod record;
mod rng;
mod room;
mod rust_side;
mod self_test;
mod sources;
#[allow(dead_code)]
mod stand_in;
mod tables;
#[allow(dead_code)]
mod unreached;
mod words;

use sources::*;
pub use unreached::CellContentStyle;

use std::process::ExitCode;
use std::sync::Mutex;
use std::sync::atomic::{AtomicUsize, Ordering};
use std::time::{Duration, Instant, SystemTime};

use cases::Piece;
use check::{ANCHORED, Due, MOVED, Tally, VIEWED, Worker};
use library::{Library, Reader};
use numbers::{ANCHOR_ENTRIES, AnchorEntry, MARKED, MODES, Mode};
use words::Asked;

const SEED: u64 = 0x7e1f_1057;
const THREADS: usize = 2;

/// Runs the pieces on two threads, in order; gives the first differing case, if any.
fn run(library: &Library, pieces: &[Piece], until: Option<Instant>, tally: &Mutex<Tally>) -> Option<String> {
    let next = AtomicUsize::new(0);
    let first = Mutex::new((usize::MAX, String::new()));
    std::thread::scope(|scope| {
        for _ in 0..THREADS {
            scope.spawn(|| {
                let mut worker = Worker::new(library);
                loop {
                    let at = next.fetch_add(1, Ordering::Relaxed);
                    if at >= pieces.len()
                        || at > first.lock().unwrap().0
                        || until.is_some_and(|t| Instant::now() > t)
                    {
                        break;
                    }
                    worker.class = pieces[at].class;
                    if let Err(words) = (pieces[at].run)(&mut worker) {
                        let mut first = first.lock().unwrap();
                        if at < first.0 {
                            *first = (at, format!("a case of \"{}\" differs\n{words}", pieces[at].class));
                        }
                    }
                }
                worker.tally.panics = rust_side::panics();
                tally.lock().unwrap().add(&worker.tally);
            });
        }
    });
    let (at, words) = first.into_inner().unwrap();
    (at != usize::MAX).then_some(words)
}

fn grouped(n: u64) -> String {
    let digits = n.to_string();
    let mut out = String::new();
    for (i, digit) in digits.chars().enumerate() {
        if i > 0 && (digits.len() - i) % 3 == 0 {
            out.push(',');
        }
        out.push(digit);
    }
    out
}

fn report(tally: &Tally, seconds: f64) {
    let total: u64 = tally.cases.values().sum();
    println!("compared with the Rust (quote marks: with the harness's own reading), every number:");
    for (class, count) in &tally.cases {
        println!("  {:>12}  {class}", grouped(*count));
    }
    println!("  {:>12}  in all, {seconds:.0} s", grouped(total));
    let numbered = |counts: &[u64]| {
        let shown: Vec<String> = counts
            .iter()
            .enumerate()
            .filter(|(_, n)| **n > 0)
            .map(|(i, n)| format!("{i}: {}", grouped(*n)))
            .collect();
        shown.join(", ")
    };
    let by_number = [
        ("answers by refusal (0 is none)", &tally.refusals[..]),
        ("rows by tag", &tally.tags[..]),
        ("diagnostics by number", &tally.diagnostics[..]),
        ("lists and links read, by commas taken back (3: or more)", &tally.taken_back[..]),
    ];
    for (what, counts) in by_number {
        if counts.iter().any(|n| *n > 0) {
            println!("{what}: {}", numbered(counts));
        }
    }
    if tally.marks.as_flattened().iter().any(|n| *n > 0) {
        let shown: Vec<String> = MARKED
            .iter()
            .zip(&tally.marks)
            .map(|(tag, counts)| format!("{tag}: {}", counts.map(grouped).join(" ")))
            .collect();
        println!("rows by tag and quote mark (0, 1, 2): {}", shown.join("; "));
    }
    let did: Vec<String> =
        MOVED.iter().zip(tally.moves).map(|(did, n)| format!("{did} {}", grouped(n))).collect();
    if tally.moves.iter().any(|n| *n > 0) {
        println!("moves by what they did: {}", did.join("; "));
    }
    if tally.viewed.iter().any(|n| *n > 0) {
        let due: Vec<String> =
            VIEWED.iter().zip(tally.viewed).map(|(due, n)| format!("{due} {}", grouped(n))).collect();
        println!("calls of the viewer by what is due of it: {}", due.join("; "));
    }
    for (entry, counts) in ANCHOR_ENTRIES.iter().zip(&tally.anchors) {
        if counts.iter().any(|n| *n > 0) {
            let due: Vec<String> =
                ANCHORED.iter().zip(counts).map(|(due, n)| format!("{due} {}", grouped(*n))).collect();
            println!("anchors, {entry:?}, by what is due: {}", due.join("; "));
        }
    }
    let counted = [
        ("lines in which commas were taken back, and more stand inside pairs of quotes", tally.crossing),
        ("is_block_attr_list said yes", tally.yes),
        ("link text closed by another token, which the Rust takes and 8 is due", tally.other_closing),
    ];
    for (what, count) in counted {
        if count > 0 {
            println!("{what}: {}", grouped(count));
        }
    }
    for (at, count) in &tally.panics {
        println!("panics of the Rust at {at}: {}", grouped(*count));
    }
}

/// A comparison that never met an answer of some kind would say little.
fn telling(library: &Library, tally: &Tally) -> bool {
    let mut missing = Vec::new();
    let lists_of = |reader| rust_side::ENTRIES.iter().any(|e| library.has_list(reader, *e));
    let lists = lists_of(Reader::Main);
    let anchors = ANCHOR_ENTRIES.iter().any(|entry| library.has_anchor(*entry));
    let of_sets = |mode| library.has_from_meta(mode) || library.has_moves(mode);
    let due = |n: usize| match n {
        0 => true,
        1..=6 => lists || anchors || library.has_is_block_attr_list(),
        7 | 8 => lists,
        9 => MODES.iter().any(|mode| library.has_from_meta(*mode)),
        10 => MODES.iter().any(|mode| of_sets(*mode)),
        11 => of_sets(Mode::Sheet),
        _ => anchors,
    };
    for (number, count) in tally.refusals.iter().enumerate() {
        if due(number) && *count < 10 {
            missing.push(format!("refusal {number}"));
        }
    }
    if lists {
        missing.extend((1..9).filter(|tag| tally.tags[*tag] < 1000).map(|tag| format!("tag {tag}")));
        missing.extend((1..5).filter(|d| tally.diagnostics[*d] < 1000).map(|d| format!("diagnostic {d}")));
        missing
            .extend((0..4).filter(|n| tally.taken_back[*n] < 1000).map(|n| format!("{n} commas taken back")));
        if tally.crossing < 1000 {
            missing.push("commas taken back where pairs cross".into());
        }
        let viewed = VIEWED.iter().zip(tally.viewed).filter(|(_, count)| *count < 1000);
        if lists_of(Reader::Viewer) {
            missing.extend(viewed.map(|(due, _)| format!("of the viewer: {due}")));
        }
        for (tag, counts) in MARKED.iter().zip(tally.marks) {
            let few = (0..3).filter(|mark| counts[*mark] < 1000);
            missing.extend(few.map(|mark| format!("tag {tag} with the mark {mark}")));
        }
    }
    for (entry, counts) in ANCHOR_ENTRIES.iter().zip(tally.anchors) {
        let few =
            ANCHORED.iter().zip(counts).filter(|(_, count)| library.has_anchor(*entry) && *count < 1000);
        missing.extend(few.map(|(due, _)| format!("anchors, {entry:?}: {due}")));
    }
    let moved = MODES.iter().all(|mode| library.has_moves(*mode));
    missing.extend(
        MOVED
            .iter()
            .zip(tally.moves)
            .filter(|(_, count)| moved && *count < 1000)
            .map(|(did, _)| format!("a move: {did}")),
    );
    if !missing.is_empty() {
        println!("too few answers of these kinds were met: {}", missing.join(", "));
    }
    missing.is_empty()
}

fn usage() -> ExitCode {
    eprintln!(
        "usage: compare                            the self-test, then the comparison at the gate's size
       compare --self-test                the Rust side and the harness's own reading alone
       compare --record                   makes the recorded answers anew
       compare --minutes N [--seed S]     the comparison, longer, then fresh random cases until N minutes are over
       compare --line ENTRY TEXT          what the Rust gives for a line, how many commas it takes back, and the quote
                                          marks (block, macro, inline, link; block-anchor, inline-anchor: behind its two
                                          brackets; is: whether the line, opening bracket and all, is a block attribute
                                          list)
       compare --lines ENTRY              what the Rust gives for each line of the standard input, in words, without
                                          the quote marks
       compare --our-side                 differences.txt with the sides of the Rust and of this reader made anew
       compare --page                     whether every table of docs/DIFFERENCES.md is as differences.txt records
       compare --texts                    the subs texts by which the differences are explained"
    );
    ExitCode::from(2)
}

fn main() -> ExitCode {
    rust_side::watch_panics();
    let args: Vec<String> = std::env::args().skip(1).collect();
    let mut minutes: Option<u64> = None;
    let mut seed: Option<u64> = None;
    let mut self_test_only = false;
    let mut record = false;
    let mut at = 0;
    while at < args.len() {
        let value = args.get(at + 1);
        match (args[at].as_str(), value) {
            ("--self-test", _) => self_test_only = true,
            ("--record", _) => record = true,
            ("--minutes", Some(n)) => {
                minutes = n.parse().ok();
                at += 1;
            }
            ("--seed", Some(n)) => {
                seed = n.parse().ok();
                at += 1;
            }
            ("--line", Some(entry)) if args.len() == at + 3 => return show_line(entry, &args[at + 2]),
            ("--lines", Some(entry)) if args.len() == at + 2 => return show_lines(entry),
            ("--texts", None) => return show_texts(),
            ("--our-side", None) => return show_our_side(),
            ("--page", None) => return show_page(),
            _ => return usage(),
        }
        at += 1;
    }
    for name in Library::listed() {
        if !Library::KNOWN.contains(&name) {
            println!("{name} is listed, but the harness does not know how to compare it");
            return ExitCode::FAILURE;
        }
    }
    if record {
        let made = record::recorded(&Library::listed());
        if let Err(e) = std::fs::write(record::STDIN, made.calls)
            .and_then(|()| std::fs::write(record::STDOUT, made.answers))
            .and_then(|()| std::fs::write(room::STDOUT, room::answers()))
        {
            println!("cannot write the recorded answers: {e}");
            return ExitCode::FAILURE;
        }
        return ExitCode::SUCCESS;
    }
    if !self_test::run() {
        return ExitCode::FAILURE;
    }
    if self_test_only {
        return ExitCode::SUCCESS;
    }
    let library = Library::linked();
    if library.exports() == 0 {
        println!("no export is listed yet: nothing to compare");
        return ExitCode::SUCCESS;
    }
    println!("{} of {} functions are exported and compared", library.exports(), Library::KNOWN.len());
    let start = Instant::now();
    let tally = Mutex::new(Tally::default());
    let mut different = run(&library, &cases::gate(SEED), None, &tally);
    if let (None, Some(minutes)) = (&different, minutes) {
        let until = Some(start + Duration::from_secs(60 * minutes));
        let clock = SystemTime::now().duration_since(SystemTime::UNIX_EPOCH).map_or(0, |d| d.as_secs());
        let first = seed.unwrap_or(clock << 20);
        println!("fresh cases from seed {first}");
        different = run(&library, &cases::longer(), until, &tally);
        let mut round = 0;
        while different.is_none() && until.is_some_and(|t| Instant::now() < t) {
            different = run(&library, &cases::fresh(first.wrapping_add(round << 32)), until, &tally);
            round += 1;
        }
        println!("{round} rounds of fresh cases");
    }
    let tally = tally.into_inner().unwrap();
    report(&tally, start.elapsed().as_secs_f64());
    if let Some(words) = different {
        println!("DIFFERENT: {words}");
        return ExitCode::FAILURE;
    }
    if !telling(&library, &tally) {
        return ExitCode::FAILURE;
    }
    match differences::check(&library) {
        Ok(words) => println!("docs/DIFFERENCES.md: {words}"),
        Err(words) => {
            println!("docs/DIFFERENCES.md does not hold: {words}");
            return ExitCode::FAILURE;
        }
    }
    println!("no difference");
    ExitCode::SUCCESS
}

/// What the Rust gives for a line of plain text, how many commas it takes back, and the quote marks; no
/// marks where this reader refuses what the Rust takes.
fn show_line(entry: &str, text: &str) -> ExitCode {
    let line = lines::LineBuf::lex(text);
    if line.kinds.is_empty() {
        return usage();
    }
    if entry == "is" {
        println!("{}", if rust_side::is_block_attr_list(line.lent()) { "yes" } else { "no" });
        return ExitCode::SUCCESS;
    }
    let entry = match words::entry_of(entry) {
        Some(Asked::List(entry)) => entry,
        Some(Asked::Anchor(entry)) => return show_anchor(entry, &line),
        None => return usage(),
    };
    let mut due = Due::default();
    let outcome = match due.read(entry, line.lent(), &line.text) {
        Ok(outcome) => outcome,
        Err(words) => {
            println!("DIFFERENT: {words}");
            return ExitCode::FAILURE;
        }
    };
    println!("{outcome:?}");
    let rows: Vec<&[u32]> = match outcome {
        rust_side::Outcome::OtherClosing(_) => due.rust.iter().map(|row| &row[..]).collect(),
        _ => due.rows().iter().map(|row| &row[..]).collect(),
    };
    for row in rows {
        println!("  {row:?}  {}", words::row(&line, row));
    }
    ExitCode::SUCCESS
}

/// What the Rust gives for the line of an anchor, in numbers and in words.
fn show_anchor(entry: AnchorEntry, line: &lines::LineBuf) -> ExitCode {
    match check::expected_anchor(entry, line.lent(), &line.text) {
        Ok(anchor) => {
            println!("{anchor:?}\n  {}", words::anchor(line, anchor));
            ExitCode::SUCCESS
        }
        Err(words) => {
            println!("DIFFERENT: {words}");
            ExitCode::FAILURE
        }
    }
}

/// The Rust's answers in words to the lines of the standard input, each on a line of its own.
fn show_lines(entry: &str) -> ExitCode {
    let Some(entry) = words::entry_of(entry) else { return usage() };
    for text in std::io::stdin().lines().map_while(Result::ok) {
        let line = lines::LineBuf::lex(&text);
        println!("{}", if line.kinds.is_empty() { String::new() } else { words::answer(entry, &line) });
    }
    ExitCode::SUCCESS
}

/// The texts of the explanation, each after the letter of the set that it is put on.
fn show_texts() -> ExitCode {
    for letter in explained::LETTERS {
        for text in explained::texts() {
            println!("{letter} `{text}`");
        }
    }
    ExitCode::SUCCESS
}

/// The record of differences with our sides made anew.
fn show_our_side() -> ExitCode {
    let made = std::fs::read_to_string(differences::RECORD)
        .map_err(|e| e.to_string())
        .and_then(|record| differences::our_side(&record, &Library::linked()));
    match made {
        Ok(record) => {
            print!("{record}");
            ExitCode::SUCCESS
        }
        Err(words) => {
            eprintln!("compare: {}: {words}", differences::RECORD);
            ExitCode::FAILURE
        }
    }
}

/// Whether the page is as the record says.
fn show_page() -> ExitCode {
    let record = std::fs::read_to_string(differences::RECORD).map_err(|e| e.to_string());
    match record.and_then(|record| differences::check_page(&record)) {
        Ok((claims, rows)) => {
            println!("docs/DIFFERENCES.md: {rows} table rows are as recorded, {claims} claims in all");
            ExitCode::SUCCESS
        }
        Err(words) => {
            println!("docs/DIFFERENCES.md does not hold: {words}");
            ExitCode::FAILURE
        }
    }
}
