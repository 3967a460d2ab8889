//! Why the Rust, sheet mode and Asciidoctor differ on the text of a subs attribute: one reading
//! with a switch for each cause that docs/DIFFERENCES.md names. With all of them off it is the
//! Rust, with A1 to A3 on sheet mode, with all of them on Asciidoctor. That this is so is looked
//! at text by text; Asciidoctor's answers are recorded by their digest.

use std::fmt::Write as _;

use crate::check::{Checked, SUBS_NAMES, Worker};
use crate::model::flag;
use crate::rng::Rng;
use crate::rust_side::{Mode, NO_SUBS, Set, from_meta, of_rust};
use crate::substitutions::Substitutions;

/// The causes in the order of the page; a bit is a switch that is on.
pub const CAUSES: [&str; 7] = ["A1", "A2", "A3", "A4", "A5", "A6", "A7"];
/// Insert fills the seventh place.
const A1: u8 = 1;
/// `verbatim` is specialchars and callouts.
const A2: u8 = 2;
/// Spaces at the ends of a part do not count.
const A3: u8 = 4;
/// No space of the text counts.
const A4: u8 = 8;
/// The first part alone says whether to begin with the set given.
const A5: u8 = 16;
/// A group that is prepended stands in its own order.
const A6: u8 = 32;
/// `specialcharacters` is specialchars.
const A7: u8 = 64;

const OFF: u8 = 0;
const SHEET: u8 = A1 | A2 | A3;
const ALL: u8 = 127;

fn kinds_of(on: u8, name: &str) -> &'static [u8] {
    match name {
        "normal" => &[1, 2, 3, 4, 5, 6],
        "verbatim" if on & A2 != 0 => &[1, 7],
        "verbatim" => &[1, 4],
        "specialcharacters" if on & A7 != 0 => &[1],
        _ => {
            static ONE: [[u8; 1]; 7] = [[1], [2], [3], [4], [5], [6], [7]];
            SUBS_NAMES.iter().position(|n| *n == name).map_or(&[], |at| &ONE[at][..])
        }
    }
}

/// The kinds placed and the flags.
struct Placed {
    kinds: Vec<u8>,
    flags: u8,
}

impl Placed {
    fn insert(&mut self, kind: u8, places: usize) {
        if self.flags & flag(kind) == 0 && self.kinds.len() < places {
            self.kinds.push(kind);
        }
        self.flags |= flag(kind);
    }

    fn remove(&mut self, kind: u8) {
        self.kinds.retain(|k| *k != kind);
        self.flags &= !flag(kind);
    }

    fn prepend(&mut self, kind: u8) {
        self.remove(kind);
        self.kinds.insert(0, kind);
        self.flags |= flag(kind);
    }
}

/// What the text makes of a set, with these switches on.
fn customized(on: u8, given: Set, text: &str) -> Set {
    let text = if on & A4 != 0 { text.replace(' ', "") } else { text.to_string() };
    let parts: Vec<&str> =
        text.split(',').map(|part| if on & A3 != 0 { part.trim_matches(' ') } else { part }).collect();
    let first = parts[0];
    let modifies = match on & A5 {
        0 => text.contains(['+', '-']),
        _ => first.starts_with(['+', '-']) || first.ends_with('+'),
    };
    let begin = if modifies { given } else { NO_SUBS };
    let mut set =
        Placed { kinds: begin.places.into_iter().filter(|k| *k != 0).collect(), flags: begin.flags };
    for part in parts.into_iter().filter(|part| part.len() >= 4) {
        if let Some(name) = part.strip_prefix('+') {
            kinds_of(on, name).iter().for_each(|kind| set.insert(*kind, 6 + usize::from(on & A1)));
        } else if let Some(name) = part.strip_suffix('+') {
            let kinds = kinds_of(on, name);
            if on & A6 != 0 {
                kinds.iter().rev().for_each(|kind| set.prepend(*kind));
            } else {
                kinds.iter().for_each(|kind| set.prepend(*kind));
            }
        } else if let Some(name) = part.strip_prefix('-') {
            kinds_of(on, name).iter().for_each(|kind| set.remove(*kind));
        } else {
            kinds_of(on, part).iter().for_each(|kind| set.insert(*kind, 6 + usize::from(on & A1)));
        }
    }
    let mut places = [0; 7];
    places[..set.kinds.len()].copy_from_slice(&set.kinds);
    Set { places, flags: set.flags }
}

/// The sets that the texts are put on, by the letter that the page calls them by.
pub fn start(letter: &str) -> Option<Set> {
    match letter {
        "N" => Some(of_rust(Substitutions::normal())),
        "V" => Some(of_rust(Substitutions::verbatim())),
        _ => None,
    }
}

/// A set as the page writes it: its kinds in order, `(!k)` for a flag without a place, `-` for
/// the empty set.
pub fn written(set: Set) -> String {
    let mut words: String =
        set.places.iter().filter(|kind| **kind != 0).map(|kind| kind.to_string()).collect();
    for kind in 1..=7 {
        if set.flags & flag(kind) != 0 && !set.places.contains(&kind) {
            let _ = write!(words, "(!{kind})");
        }
    }
    if words.is_empty() { "-".to_string() } else { words }
}

/// Every text that the explanation is held to: every name, known or not, with every modifier and
/// spacing; all pairs of names with modifiers, with and without a space; random lists.
pub fn texts() -> Vec<String> {
    let known = ["none", "normal", "verbatim", "specialcharacters"];
    let names: Vec<&str> = SUBS_NAMES.iter().chain(&known).copied().collect();
    let others =
        ["", "q", "abc", "bogus", "Quotes", "post-replacements", "x-y", "a+b", "quo tes", "quotes\t"];
    let modified =
        |name: &str| [name.to_string(), format!("+{name}"), format!("{name}+"), format!("-{name}")];
    let mut texts = Vec::new();
    for name in names.iter().chain(&others) {
        let more = [
            format!("{name}-"),
            format!("+{name}+"),
            format!("-{name}+"),
            format!("--{name}"),
            format!("++{name}"),
            format!("{name}++"),
            format!("+-{name}"),
            format!("+ {name}"),
            format!("- {name}"),
            format!("{name} +"),
        ];
        for part in modified(name).into_iter().chain(more) {
            texts.extend([format!(" {part}"), format!("{part} "), format!("  {part}  ")]);
            texts.push(part);
        }
    }
    let parts: Vec<String> =
        names.iter().chain(&["bogus", "q", ""]).flat_map(|name| modified(name)).collect();
    for first in &parts {
        for second in &parts {
            texts.extend([",", ", ", " ,"].map(|comma| format!("{first}{comma}{second}")));
        }
    }
    let mut rng = Rng::new(0x5b5);
    for _ in 0..12_000 {
        let mut text = rng.pick(&parts).clone();
        for _ in 0..2 + rng.below(7) {
            text.push_str(*rng.pick(&[",", ",", ", "]));
            text.push_str(rng.pick(&parts).as_str());
        }
        texts.push(text);
    }
    texts
}

pub const LETTERS: [&str; 2] = ["N", "V"];

/// FNV-1a over 64 bits, line after line.
pub struct Digest(u64);

impl Digest {
    pub fn new() -> Self {
        Digest(0xcbf2_9ce4_8422_2325)
    }

    pub fn add(&mut self, line: &str) {
        for byte in line.bytes().chain([b'\n']) {
            self.0 = (self.0 ^ u64::from(byte)).wrapping_mul(0x0000_0100_0000_01b3);
        }
    }

    pub fn written(&self) -> String {
        format!("{:016x}", self.0)
    }
}

/// Holds the explanation to the Rust and to both modes of the library, text by text, and gives
/// what is recorded of it: the digests, and for each cause how many texts need it.
pub fn explained(worker: &mut Worker<'_>) -> Result<Vec<(&'static str, String)>, Box<String>> {
    let texts = texts();
    let readings = [OFF, SHEET, ALL];
    let mut digests = readings.map(|_| Digest::new());
    let mut needed = [0u64; 7];
    for letter in LETTERS {
        let given = start(letter).expect("a letter of the page");
        for text in &texts {
            let answers = readings.map(|on| customized(on, given, text));
            agrees(worker, given, text, answers)?;
            for (digest, answer) in digests.iter_mut().zip(answers) {
                digest.add(&format!("{letter} `{text}` {}", written(answer)));
            }
            for (cause, count) in needed.iter_mut().enumerate() {
                // without A4 the spaces at the ends still go by A3, and without A3 by A4
                let without = if cause == 2 { ALL & !A3 & !A4 } else { ALL & !(1 << cause) };
                *count += u64::from(customized(without, given, text) != answers[2]);
            }
        }
    }
    if let Some(cause) = needed.iter().position(|count| *count == 0) {
        return Err(Box::new(format!("no text needs the cause {}\n", CAUSES[cause])));
    }
    let [off, sheet, all] = digests.map(|digest| digest.written());
    let needed: Vec<String> = CAUSES.iter().zip(needed).map(|(cause, n)| format!("{cause} {n}")).collect();
    Ok(vec![
        ("texts", (LETTERS.len() * texts.len()).to_string()),
        ("needed", needed.join(", ")),
        ("Rust", off),
        ("sheet", sheet),
        ("A1 to A7", all),
    ])
}

fn agrees(worker: &mut Worker<'_>, given: Set, text: &str, [off, sheet, all]: [Set; 3]) -> Checked {
    let rust = from_meta(given, Some(text));
    let by_model = crate::model::sheet(given, Some(text.as_bytes()));
    if rust != Some(off) || sheet != by_model || all.flags & 128 != 0 {
        return Err(Box::new(format!(
            "`{text}` on {}: the switches give {}, {} and {}; the Rust {}, sheet mode {}\n",
            written(given),
            written(off),
            written(sheet),
            written(all),
            rust.map_or("panicked".to_string(), written),
            written(by_model),
        )));
    }
    worker.subs(Mode::Port, given, Some(text.as_bytes()), b"")?;
    worker.subs(Mode::Sheet, given, Some(text.as_bytes()), b"")
}
