//! Written from document 01 alone, with no eye on either program: where a call is turned away
//! (refusals 1 to 7 and 9 to 11, which the Rust does not have), and sheet mode, which the Rust
//! does not have either.

use crate::numbers::{Mode, Move, ROW, Set};

pub const MOST_TOKENS: usize = 4096;
/// The small viewer's, of document 02.
pub const VIEWER_TOKENS: usize = 256;
pub const MOST_BYTES: usize = 65_535;

/// Checks 1 to 6 of a reader of at most `most` tokens: the first that applies, or 0.
pub fn line_refusal(kinds: &[u8], text: &[u8], pairs: &[u32], most: usize) -> usize {
    if kinds.is_empty() {
        return 1;
    }
    if kinds.len() > most {
        return 2;
    }
    if text.len() > MOST_BYTES {
        return 3;
    }
    if pairs.len() != 2 * kinds.len() {
        return 4;
    }
    if kinds.iter().any(|kind| *kind > 50) {
        return 5;
    }
    let mut end: u64 = 0;
    for pair in pairs.chunks(2) {
        let (offset, length) = (u64::from(pair[0]), u64::from(pair[1]));
        if offset < end || offset + length > text.len() as u64 {
            return 6;
        }
        end = offset + length;
    }
    0
}

/// Check 7, for a line that passed the others.
pub fn room_refusal(tokens: usize, numbers: usize) -> usize {
    if numbers < ROW * tokens { 7 } else { 0 }
}

pub fn flag(kind: u8) -> u8 {
    1 << (kind - 1)
}

fn placed_flags(set: Set) -> u8 {
    set.places.iter().filter(|kind| **kind != 0).fold(0, |flags, kind| flags | flag(*kind))
}

pub fn held(set: Set) -> bool {
    let count = set.places.iter().position(|kind| *kind == 0).unwrap_or(7);
    let (front, back) = set.places.split_at(count);
    let kinds_only = set.places.iter().all(|kind| *kind <= 7);
    let packed = back.iter().all(|kind| *kind == 0);
    let once = front.iter().enumerate().all(|(i, kind)| !front[..i].contains(kind));
    if !(kinds_only && packed && once && set.flags < 128) {
        return false;
    }
    let placed = placed_flags(set);
    set.flags & placed == placed && (set.flags & !placed).count_ones() <= 1
}

pub fn sound(set: Set) -> bool {
    held(set) && set.flags == placed_flags(set)
}

/// Checks 10 and 11, or 0: "refuse with 10, in sheet mode then 11".
pub fn set_refusal(mode: Mode, set: Set) -> usize {
    if !held(set) {
        10
    } else if mode == Mode::Sheet && !sound(set) {
        11
    } else {
        0
    }
}

/// Checks 9 to 11, or 0. A call without a subs attribute has no subs text.
pub fn subs_refusal(mode: Mode, set: Set, text: Option<&[u8]>) -> usize {
    if text.is_some_and(|text| text.len() > MOST_BYTES) { 9 } else { set_refusal(mode, set) }
}

// ---- sheet mode

/// A sound set is its kinds in order.
fn kinds_of(set: Set) -> Vec<u8> {
    set.places.iter().copied().filter(|kind| *kind != 0).collect()
}

fn set_of(kinds: &[u8]) -> Set {
    let mut places = [0; 7];
    places[..kinds.len()].copy_from_slice(kinds);
    Set { places, flags: kinds.iter().fold(0, |flags, kind| flags | flag(*kind)) }
}

/// "Insert does nothing if the flag is set", else it puts the kind last, also in the seventh
/// place; "remove closes the gap"; "prepend moves or puts the kind first".
fn step_in_sheet(kinds: &mut Vec<u8>, step: Move, kind: u8) {
    match step {
        Move::Insert if kinds.contains(&kind) => {}
        Move::Insert => kinds.push(kind),
        Move::Remove => kinds.retain(|k| *k != kind),
        Move::Prepend => {
            kinds.retain(|k| *k != kind);
            kinds.insert(0, kind);
        }
    }
}

/// A move in sheet mode with a kind of 1 to 7, on a sound set.
pub fn sheet_move(set: Set, step: Move, kind: u8) -> Set {
    let mut kinds = kinds_of(set);
    step_in_sheet(&mut kinds, step, kind);
    set_of(&kinds)
}

fn group(name: &[u8]) -> Option<&'static [u8]> {
    let names: [(&str, &'static [u8]); 10] = [
        ("specialchars", &[1]),
        ("quotes", &[2]),
        ("attributes", &[3]),
        ("replacements", &[4]),
        ("macros", &[5]),
        ("post_replacements", &[6]),
        ("callouts", &[7]),
        ("none", &[]),
        ("normal", &[1, 2, 3, 4, 5, 6]),
        ("verbatim", &[1, 7]),
    ];
    names.iter().find(|(n, _)| n.as_bytes() == name).map(|(_, kinds)| *kinds)
}

/// Sheet mode on a sound set.
pub fn sheet(set: Set, text: Option<&[u8]>) -> Set {
    let Some(text) = text else { return set };
    let mut kinds = if text.iter().any(|b| *b == b'+' || *b == b'-') { kinds_of(set) } else { vec![] };
    for part in text.split(|b| *b == b',') {
        let Some(first) = part.iter().position(|b| *b != 32) else { continue };
        let last = part.iter().rposition(|b| *b != 32).unwrap();
        let part = &part[first..=last];
        if part.len() < 4 {
            continue;
        }
        let (step, name) = if let Some(name) = part.strip_prefix(b"+") {
            (Move::Insert, name)
        } else if let Some(name) = part.strip_suffix(b"+") {
            (Move::Prepend, name)
        } else if let Some(name) = part.strip_prefix(b"-") {
            (Move::Remove, name)
        } else {
            (Move::Insert, part)
        };
        for kind in group(name).unwrap_or(&[]) {
            step_in_sheet(&mut kinds, step, *kind);
        }
    }
    set_of(&kinds)
}

// ---- every held set

/// Every held set: each order of some of the seven kinds, alone and with each one flag more.
pub fn held_sets() -> Vec<Set> {
    fn grow(kinds: &mut Vec<u8>, sets: &mut Vec<Set>) {
        let set = set_of(kinds);
        sets.push(set);
        for kind in 1..=7 {
            if !kinds.contains(&kind) {
                sets.push(Set { flags: set.flags | flag(kind), ..set });
            }
        }
        for kind in 1..=7 {
            if !kinds.contains(&kind) {
                kinds.push(kind);
                grow(kinds, sets);
                kinds.pop();
            }
        }
    }
    let mut sets = Vec::new();
    grow(&mut Vec::new(), &mut sets);
    sets
}
