//! What the Rust gives for a line of plain text, in words.

use crate::library::Anchor;
use crate::lines::LineBuf;
use crate::rust_side::{self, AnchorEntry, Entry, Outcome};
use crate::token::TokenKind;

/// What a line is read as.
#[derive(Clone, Copy)]
pub enum Asked {
    List(Entry),
    Anchor(AnchorEntry),
}

/// The entries by the names that `--line` and the record of differences call them by.
pub fn entry_of(name: &str) -> Option<Asked> {
    match name {
        "block" => Some(Asked::List(Entry::Block)),
        "macro" => Some(Asked::List(Entry::BlockMacro)),
        "inline" => Some(Asked::List(Entry::Inline)),
        "link" => Some(Asked::List(Entry::Link)),
        "block-anchor" => Some(Asked::Anchor(AnchorEntry::Block)),
        "inline-anchor" => Some(Asked::Anchor(AnchorEntry::Inline)),
        _ => None,
    }
}

/// The text of the tokens that are wanted.
fn text_of(line: &LineBuf, places: impl Iterator<Item = usize>) -> String {
    let bytes = places.flat_map(|place| line.lent().lexeme(place).iter().copied()).collect();
    format!("`{}`", String::from_utf8(bytes).unwrap_or_default())
}

/// A run's text, AttrRef tokens skipped.
fn shown(line: &LineBuf, place: u32, count: u32) -> String {
    let places = place as usize..(place + count) as usize;
    text_of(line, places.filter(|place| line.kinds[*place] != TokenKind::AttrRef as u8))
}

/// A row in words; its mark is not told.
pub fn row(line: &LineBuf, row: &[u32]) -> String {
    let first = || shown(line, row[1], row[2]);
    let second = || shown(line, row[3], row[4]);
    match row[0] {
        1 => "positional, empty".to_string(),
        2 => format!("positional {}", first()),
        3 => format!("named {} = {}", first(), second()),
        4 => format!("id {}", first()),
        5 => format!("role {}", first()),
        6 => format!("option {}", first()),
        7 => format!("diagnostic {} at token {}", row[2], row[1]),
        _ => format!("named, read under none, {} = {}", first(), second()),
    }
}

/// An anchor in words; AttrRef tokens belong to its runs.
pub fn anchor(line: &LineBuf, anchor: Anchor) -> String {
    let run = |place: usize, count: usize| text_of(line, place..place + count);
    match anchor {
        Anchor { refusal: 0, anchor: 0, .. } => return "no anchor".to_string(),
        Anchor { refusal: 0, .. } => {}
        Anchor { refusal, .. } => return format!("refused ({refusal})"),
    }
    let mut words = format!("id {}", run(anchor.id_place, anchor.id_count));
    if anchor.text_count != 0 {
        words += &format!(", text {}", run(anchor.text_place, anchor.text_count));
    }
    if anchor.discard != 0 {
        words += " (its first token counts as Discard)";
    }
    if anchor.consumed < line.kinds.len() {
        words += &format!("; then {}", run(anchor.consumed, line.kinds.len() - anchor.consumed));
    }
    words
}

/// The whole answer on one line.
pub fn answer(asked: Asked, line: &LineBuf) -> String {
    match asked {
        Asked::List(entry) => list(entry, line),
        Asked::Anchor(entry) => {
            rust_side::anchor(entry, line.lent()).map_or_else(|words| words, |found| anchor(line, found))
        }
    }
}

fn list(entry: Entry, line: &LineBuf) -> String {
    let mut rows = Vec::new();
    let outcome = rust_side::read(entry, line.lent(), &mut rows);
    let rows: Vec<String> = rows.into_iter().map(|numbers| row(line, &numbers)).collect();
    let words = rows.join("; ");
    match outcome {
        Outcome::Panicked => "refused (8)".to_string(),
        Outcome::OtherClosing(_) => {
            format!("{words}, closed by a token that is no bracket (this reader: refusal 8)")
        }
        Outcome::Read { consumed, .. } if rows.is_empty() => format!("no row ({consumed} consumed)"),
        Outcome::Read { consumed, .. } if consumed < line.kinds.len() => {
            let rest = (line.kinds.len() - consumed) as u32;
            format!("{words}; then {}", shown(line, consumed as u32, rest))
        }
        Outcome::Read { .. } => words,
    }
}
