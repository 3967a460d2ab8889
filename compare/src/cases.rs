//! The generated cases. Each is cut into pieces that two threads share; a piece is the same on
//! every run from the same seed.

use crate::anchor_cases;
use crate::check::{Checked, SUBS_NAMES, Worker};
use crate::lines::{
    A, BACK, CLOSE, COMMA, DOT, DOTS, DOUBLE, EQUAL, EQUALS, HALVES, HASH, LineBuf, OPEN, PERCENT, REF,
    SIGNIFICANT, SINGLE, SPACE, Tok, any_kinds_line, commas_and_quotes, random_line, spoil_utf8,
};
use crate::model::{self, MOST_BYTES, MOST_TOKENS, VIEWER_TOKENS};
use crate::rng::Rng;
use crate::rust_side::{ENTRIES, Entry, MODES, MOVES, Mode, NO_SUBS, NORMAL, ROW, Set};
use crate::token::TokenKind::*;

/// A piece of work of one class.
pub struct Piece {
    pub class: &'static str,
    pub run: Box<dyn Fn(&mut Worker<'_>) -> Checked + Send + Sync>,
}

pub fn piece(class: &'static str, run: impl Fn(&mut Worker<'_>) -> Checked + Send + Sync + 'static) -> Piece {
    Piece { class, run: Box::new(run) }
}

// ---- every line up to a length

pub struct Every {
    pub class: &'static str,
    pub alphabet: Vec<Tok>,
    pub before: Vec<Tok>,
    pub after: Vec<Tok>,
    pub longest: usize,
    /// The entries of lists that read each line.
    pub entries: &'static [Entry],
}

const BOTH_ENDS: &[Entry] = &[Entry::Block, Entry::Inline];

/// Calls `f` with every line of `len` tokens of the alphabet that begins with `first`.
fn each_line(every: &Every, first: usize, len: usize, f: &mut dyn FnMut(&LineBuf) -> Checked) -> Checked {
    let mut digits = vec![0; len];
    digits[0] = first;
    let mut line = LineBuf::default();
    loop {
        line.clear();
        line.push_all(&every.before);
        for digit in &digits {
            let (kind, text) = every.alphabet[*digit];
            line.push(kind, text.as_bytes());
        }
        line.push_all(&every.after);
        f(&line)?;
        let mut at = len;
        loop {
            at -= 1;
            if at == 0 {
                return Ok(());
            }
            digits[at] += 1;
            if digits[at] < every.alphabet.len() {
                break;
            }
            digits[at] = 0;
        }
    }
}

/// Room for the rows: mostly exactly enough, at times more, at times one number short, for the
/// line or for each token.
fn room(tokens: usize, turn: u32) -> usize {
    match turn % 16 {
        0 => ROW * tokens + 1 + (turn as usize / 16) % 11,
        8 if turn % 64 == 8 => (ROW - 1) * tokens,
        8 => ROW * tokens - 1,
        _ => ROW * tokens,
    }
}

/// What is done with each line of an enumeration; the last is a number of its own to count turns.
pub type EachLine = fn(&mut Worker<'_>, &Every, &LineBuf, &mut u32) -> Checked;

/// A piece for each length and first token.
pub fn every_line(every: Every, each: EachLine) -> Vec<Piece> {
    let every = std::sync::Arc::new(every);
    let mut pieces = Vec::new();
    for len in 1..=every.longest {
        for first in 0..every.alphabet.len() {
            let every = every.clone();
            pieces.push(piece(every.class, move |worker| {
                let mut turn = 0;
                each_line(&every, first, len, &mut |line| each(worker, &every, line, &mut turn))
            }));
        }
    }
    pieces
}

fn every_list(every: Every) -> Vec<Piece> {
    every_line(every, |worker, every, line, turn| {
        for entry in every.entries {
            *turn += 1;
            worker.list(*entry, line.lent(), room(line.kinds.len(), *turn), *turn)?;
        }
        Ok(())
    })
}

fn exhaustive_lists(more: usize) -> Vec<Piece> {
    let close = || vec![CLOSE];
    let id: Tok = (Word, "id");
    let subs: Tok = (Word, "subs");
    let quotes = |before: &[Tok], entries| Every {
        class: "every line, quotes around a text",
        alphabet: vec![A, SPACE, COMMA, DOUBLE, SINGLE, REF],
        before: before.to_vec(),
        after: vec![CLOSE],
        longest: 6 + more,
        entries,
    };
    let mid = vec![A, REF, SPACE, COMMA, DOUBLE, SINGLE, EQUAL, EQUALS, DOT, DOTS, HASH, CLOSE, OPEN, BACK];
    let sets = [
        Every {
            class: "every line, significant tokens, any end",
            alphabet: SIGNIFICANT.to_vec(),
            before: vec![],
            after: vec![],
            longest: 3,
            entries: &ENTRIES,
        },
        Every {
            class: "every line, significant tokens, closed",
            alphabet: SIGNIFICANT[..27].to_vec(),
            before: vec![],
            after: close(),
            longest: 4,
            entries: &ENTRIES,
        },
        Every {
            class: "every line, 14 tokens, closed",
            alphabet: mid,
            before: vec![],
            after: close(),
            longest: 5 + more,
            entries: &ENTRIES,
        },
        Every {
            class: "every line, commas and quotes",
            alphabet: vec![A, COMMA, DOUBLE, SINGLE],
            before: vec![],
            after: close(),
            longest: 9 + more,
            entries: BOTH_ENDS,
        },
        Every {
            class: "every line, commas, quotes, brackets",
            alphabet: vec![A, COMMA, DOUBLE, SINGLE, CLOSE, BACK],
            before: vec![],
            after: close(),
            longest: 6 + more,
            entries: &ENTRIES,
        },
        Every {
            class: "every line, names and values",
            alphabet: vec![A, REF, SPACE, EQUAL, EQUALS, DOUBLE, (Word, "")],
            before: vec![],
            after: close(),
            longest: 6 + more,
            entries: BOTH_ENDS,
        },
        Every {
            class: "every line, shorthand",
            alphabet: vec![A, SPACE, DOT, DOTS, HASH, PERCENT, (Hash, "##")],
            before: vec![],
            after: close(),
            longest: 6 + more,
            entries: &[Entry::Block, Entry::BlockMacro],
        },
        Every {
            class: "every line, ids",
            alphabet: vec![id, EQUAL, HASH, DOUBLE, COMMA, REF, A],
            before: vec![],
            after: close(),
            longest: 6 + more,
            entries: BOTH_ENDS,
        },
        Every {
            class: "every line, groups of options",
            alphabet: vec![A, SPACE, COMMA, DOUBLE, SINGLE, REF, (Word, "")],
            before: vec![(Word, "opts"), EQUAL],
            after: close(),
            longest: 6 + more,
            entries: &[Entry::Block],
        },
        Every {
            class: "every line, groups of roles",
            alphabet: vec![A, SPACE, COMMA, DOUBLE, SINGLE, REF, (Word, "")],
            before: vec![(Word, "role"), EQUAL],
            after: close(),
            longest: 6 + more,
            entries: &[Entry::Block],
        },
        Every {
            class: "every line, halves of names",
            alphabet: [&HALVES[..], &[REF, SPACE, EQUAL]].concat(),
            before: vec![],
            after: vec![EQUAL, A, CLOSE],
            longest: 4 + more,
            entries: BOTH_ENDS,
        },
        quotes(&[], &ENTRIES),
        quotes(&[A, EQUAL], BOTH_ENDS),
        quotes(&[id, EQUAL], BOTH_ENDS),
        quotes(&[subs, EQUAL], BOTH_ENDS),
        Every {
            class: "every line, links",
            alphabet: vec![A, DOUBLE, SINGLE, EQUAL, OPEN, CLOSE, BACK, REF, COMMA],
            before: vec![],
            after: close(),
            longest: 5 + more,
            entries: &[Entry::Link],
        },
        Every {
            class: "every line, links, any end",
            alphabet: vec![A, DOUBLE, EQUAL, OPEN, CLOSE, BACK, REF],
            before: vec![],
            after: vec![],
            longest: 6 + more,
            entries: &[Entry::Link, Entry::Inline],
        },
    ];
    sets.into_iter().flat_map(every_list).collect()
}

// ---- random lines

/// Makes a line of so many tokens.
pub type Make = fn(&mut LineBuf, &mut Rng, usize);

/// The lengths from the first number to the second.
pub type Lengths = (usize, usize);

pub fn some_length(rng: &mut Rng, (from, to): Lengths) -> usize {
    from + rng.below(to + 1 - from)
}

const AT_THE_VIEWERS_LIMIT: Lengths = (VIEWER_TOKENS - 2, VIEWER_TOKENS + 2);

/// Random lines of one making; `each` is also told the line's turn.
pub fn random_lines(
    class: &'static str,
    seed: u64,
    lines: u32,
    lengths: Lengths,
    make: Make,
    each: fn(&mut Worker<'_>, &LineBuf, &mut Rng, u32) -> Checked,
) -> Piece {
    piece(class, move |worker| {
        let mut rng = Rng::new(seed);
        let mut line = LineBuf::default();
        for turn in 0..lines {
            let len = some_length(&mut rng, lengths);
            make(&mut line, &mut rng, len);
            each(worker, &line, &mut rng, turn)?;
        }
        Ok(())
    })
}

fn random_lists(seed: u64, share: usize) -> Vec<Piece> {
    let mut pieces = Vec::new();
    let mut add = |class, seed: u64, lines: u32, lengths: Lengths, make: Make| {
        pieces.push(random_lines(class, seed, lines, lengths, make, |worker, line, rng, turn| {
            let len = line.kinds.len();
            let numbers = if rng.one_in(4) { ROW * len + rng.below(4 * len) } else { room(len, turn) };
            ENTRIES.into_iter().try_for_each(|entry| worker.list(entry, line.lent(), numbers, turn))
        }));
    };
    for part in 0..share as u64 {
        let seed = seed.wrapping_add(part << 8);
        add("random lines up to 12 tokens", seed, 40_000, (1, 12), random_line);
        add("random lines up to 60 tokens", seed + 1, 12_000, (1, 60), random_line);
        add("random lines up to 600 tokens", seed + 2, 500, (1, 600), random_line);
        add("random lines up to 4,096 tokens", seed + 3, 60, (1, MOST_TOKENS), random_line);
        add("lines over all 51 kinds", seed + 4, 30_000, (1, 16), any_kinds_line);
        add("long lines over all 51 kinds", seed + 5, 200, (1, 900), any_kinds_line);
        add("random lines of commas and quotes", seed + 7, 4_750, (1, 40), commas_and_quotes);
        add("random lines of commas and quotes", seed + 8, 250, (1, 600), commas_and_quotes);
        let class = "random lines of 254 to 258 tokens";
        add(class, seed + 13, 300, AT_THE_VIEWERS_LIMIT, random_line);
        add(class, seed + 14, 150, AT_THE_VIEWERS_LIMIT, any_kinds_line);
        add(class, seed + 15, 150, AT_THE_VIEWERS_LIMIT, commas_and_quotes);
    }
    for part in 0..share as u64 {
        let seed = seed.wrapping_add(6 + (part << 8));
        pieces.push(piece("lexemes that are no UTF-8", move |worker| {
            let mut rng = Rng::new(seed);
            let mut line = LineBuf::default();
            for turn in 0..10_000 {
                let len = 1 + rng.below(14);
                random_line(&mut line, &mut rng, len);
                let for_rust = spoil_utf8(&mut line, &mut rng);
                for entry in ENTRIES {
                    worker.list_for(entry, line.lent(), &for_rust, room(len, turn), turn)?;
                }
            }
            Ok(())
        }));
    }
    pieces
}

/// A line of `len` tokens whose middle is the tokens of `mix`, again and again. Its text has `bytes`
/// bytes, or only its lexemes where that is 0.
pub fn long_line(before: &[Tok], mix: &[Tok], after: &[Tok], len: usize, bytes: usize) -> LineBuf {
    let mut line = LineBuf::of(before);
    for place in 0..len - before.len() - after.len() {
        line.push_all(&mix[place % mix.len()..=place % mix.len()]);
    }
    if bytes > 0 {
        let grow = bytes - line.text.len() - after.iter().map(|(_, text)| text.len()).sum::<usize>();
        line.text.extend(std::iter::repeat_n(b'a', grow));
    }
    line.push_all(after);
    line
}

/// The lengths of a text at its limit; 0 is that of the lexemes alone.
pub const BYTES: [usize; 4] = [0, MOST_BYTES - 1, MOST_BYTES, MOST_BYTES + 1];

/// Lines at the limits: 4,096 tokens of one kind or of hard mixes, 256 for the viewer, 65,535 bytes.
fn limits() -> Vec<Piece> {
    let mixes: [&'static [Tok]; 14] = [
        &[A],
        &[COMMA],
        &[DOUBLE],
        &[DOUBLE, COMMA],
        &[DOUBLE, COMMA, SINGLE, COMMA],
        &[DOUBLE, COMMA, COMMA, SINGLE],
        &[DOT, A],
        &[DOT],
        &[SPACE],
        &[REF],
        &[A, EQUAL],
        &[A, COMMA],
        &[OPEN, BACK, CLOSE],
        &[(Word, "")],
    ];
    mixes
        .into_iter()
        .map(|mix| {
            piece("lines at the limits", move |worker| {
                let lengths = [VIEWER_TOKENS, MOST_TOKENS].map(|most| [most - 1, most, most + 1]);
                for &len in lengths.as_flattened() {
                    for bytes in BYTES {
                        let line = long_line(&[], mix, &[CLOSE], len, bytes);
                        for entry in ENTRIES {
                            for numbers in [ROW * len, ROW * len - 1, (ROW - 1) * len, ROW * len + 7] {
                                worker.list(entry, line.lent(), numbers, len as u32)?;
                            }
                        }
                        worker.is_block_attr_list(line.lent())?;
                    }
                }
                Ok(())
            })
        })
        .collect()
}

// ---- damaged lines

/// One fault, by the number that it should bring about if no earlier one applies.
fn damage(line: &mut LineBuf, rng: &mut Rng, fault: usize, numbers: &mut Option<usize>) {
    let tokens = line.kinds.len();
    match fault {
        1 => {
            line.kinds.clear();
            if rng.one_in(2) {
                line.pairs.clear();
            }
        }
        2 => {
            let end = line.text.len() as u32;
            let many = MOST_TOKENS + 1 + if rng.one_in(3) { rng.below(3000) } else { 0 };
            while line.kinds.len() < many {
                line.kinds.push(Word as u8);
                line.pairs.extend([end, 0]);
            }
        }
        3 => {
            let more = if rng.one_in(2) { 0 } else { rng.below(5000) };
            line.text.resize(MOST_BYTES + 1 + more, b'a');
        }
        4 => match rng.below(5) {
            0 => {
                line.pairs.pop();
            }
            1 => line.pairs.push(line.text.len() as u32),
            2 => line.pairs.extend([line.text.len() as u32, 0]),
            3 => line.pairs.truncate(line.pairs.len().saturating_sub(2)),
            _ => line.pairs.clear(),
        },
        5 if tokens > 0 => {
            let at = if rng.one_in(3) { tokens - 1 } else { rng.below(tokens) };
            line.kinds[at] = *rng.pick(&[51, 52, 127, 128, 200, 255]);
        }
        6 if line.pairs.len() >= 2 => {
            let at = rng.below(line.pairs.len() / 2);
            let (offset, length) = (line.pairs[2 * at], line.pairs[2 * at + 1]);
            let text = line.text.len() as u32;
            let (offset, length) = match rng.below(9) {
                0 => (offset.wrapping_sub(1), length),
                1 => (offset, text + 1 - offset.min(text)),
                2 => (offset, length + 1),
                3 => (u32::MAX, length),
                4 => (u32::MAX - 1, 2),
                5 => (offset, u32::MAX - offset),
                6 => (offset, u32::MAX),
                7 => (text + 1, 0),
                _ => (rng.below(text as usize + 2) as u32, rng.below(4) as u32),
            };
            line.pairs[2 * at] = offset;
            line.pairs[2 * at + 1] = length;
        }
        7 if tokens > 0 => {
            let due = ROW * tokens;
            *numbers = Some(match rng.below(4) {
                0 | 1 => due - 1,
                2 => (ROW - 1) * tokens,
                _ => rng.below(due),
            });
        }
        8 if tokens > 0 => {
            line.kinds[tokens - 1] = *rng.pick(&[Word as u8, Comma as u8, OpenBracket as u8, Backslash as u8])
        }
        _ => {}
    }
}

/// One to three faults; gives the length of the row buffer, if that is one of them.
pub fn faults(line: &mut LineBuf, rng: &mut Rng) -> Option<usize> {
    let mut numbers = None;
    for _ in 0..1 + rng.below(3) {
        // Long texts and many tokens are dear, and few tell as much as many.
        let fault = match 1 + rng.below(8) {
            fault @ (2 | 3) if !rng.one_in(40) => fault + 2,
            fault => fault,
        };
        damage(line, rng, fault, &mut numbers);
    }
    numbers
}

/// A damaged line's text for the Rust: damage may put a lexeme into a gap or inside a character.
pub fn in_ascii(text: &[u8]) -> Vec<u8> {
    text.iter().map(|b| if b.is_ascii() { *b } else { b'Z' }).collect()
}

/// Random lines, of the lengths that `length` picks, with one to three faults each.
fn damaged_lines(
    class: &'static str,
    seed: u64,
    lines: u32,
    length: impl Fn(&mut Rng) -> usize + Send + Sync + 'static,
) -> Piece {
    piece(class, move |worker| {
        let mut rng = Rng::new(seed);
        let mut line = LineBuf::default();
        for turn in 0..lines {
            let len = length(&mut rng);
            random_line(&mut line, &mut rng, len);
            let numbers = faults(&mut line, &mut rng);
            let numbers = numbers.unwrap_or(ROW * line.kinds.len() + rng.below(3));
            let for_rust = in_ascii(&line.text);
            for entry in ENTRIES {
                worker.list_for(entry, line.lent(), &for_rust, numbers, turn)?;
            }
            let line = LineBuf { text: for_rust, ..std::mem::take(&mut line) };
            worker.is_block_attr_list(line.lent())?;
        }
        Ok(())
    })
}

fn damaged(seed: u64, share: usize) -> Vec<Piece> {
    let mut pieces = Vec::new();
    for part in 0..share as u64 {
        let seed = seed.wrapping_add(7 + (part << 8));
        pieces.push(damaged_lines("damaged lines, one to three faults", seed, 20_000, |rng| {
            if rng.one_in(400) { MOST_TOKENS } else { 1 + rng.below(10) }
        }));
        let class = "damaged lines of 254 to 258 tokens";
        pieces.push(damaged_lines(class, seed + 9, 1_500, |rng| some_length(rng, AT_THE_VIEWERS_LIMIT)));
    }
    pieces
}

// ---- is_block_attr_list

fn block_tests(seed: u64, share: usize) -> Vec<Piece> {
    let every = Every {
        class: "is_block_attr_list, every line",
        alphabet: vec![
            OPEN,
            CLOSE,
            BACK,
            A,
            REF,
            SPACE,
            COMMA,
            (Word, ""),
            (OpenBracket, ""),
            (CloseBracket, ""),
        ],
        before: vec![],
        after: vec![],
        longest: 5,
        entries: &[],
    };
    let mut pieces = every_line(every, |worker, _, line, _| worker.is_block_attr_list(line.lent()));
    for part in 0..8 * share as u64 {
        let seed = seed.wrapping_add(8 + (part << 8));
        pieces.push(piece("is_block_attr_list, random lines", move |worker| {
            let mut rng = Rng::new(seed);
            let mut line = LineBuf::default();
            for _ in 0..125_000 / 8 {
                let len = 1 + if rng.one_in(50) { rng.below(400) } else { rng.below(12) };
                if rng.one_in(2) {
                    random_line(&mut line, &mut rng, len);
                } else {
                    any_kinds_line(&mut line, &mut rng, len);
                }
                if !rng.one_in(4) {
                    line.kinds[0] = OpenBracket as u8;
                }
                worker.is_block_attr_list(line.lent())?;
            }
            Ok(())
        }));
    }
    pieces
}

// ---- sets and texts

/// Every single part worth a look.
fn parts() -> Vec<Vec<u8>> {
    let mut names: Vec<String> = SUBS_NAMES.iter().map(|n| n.to_string()).collect();
    names.extend(["none", "normal", "verbatim"].map(String::from));
    let unknown = [
        "",
        "q",
        "abc",
        "abcd",
        "quote",
        "quotess",
        "Quotes",
        "QUOTES",
        "speci",
        "callout",
        "post",
        "non",
        "nonee",
        "a+b",
        "quo tes",
        "qu\u{f6}tes",
    ];
    names.extend(unknown.map(String::from));
    let mut parts = Vec::new();
    for name in names {
        let modified = [
            name.clone(),
            format!("+{name}"),
            format!("{name}+"),
            format!("-{name}"),
            format!("{name}-"),
            format!("+{name}+"),
            format!("-{name}+"),
            format!("--{name}"),
            format!("++{name}"),
            format!("{name}++"),
            format!("+-{name}"),
            format!("- {name}"),
            format!("{name} +"),
        ];
        for part in modified {
            for spaced in [
                part.clone(),
                format!(" {part}"),
                format!("{part} "),
                format!("  {part}  "),
                format!("\t{part}"),
            ] {
                parts.push(spaced.into_bytes());
            }
        }
    }
    parts
}

fn random_text(rng: &mut Rng, parts: &[Vec<u8>]) -> Vec<u8> {
    let mut text = Vec::new();
    for part in 0..1 + rng.below(9) {
        if part > 0 {
            text.push(b',');
        }
        if rng.one_in(12) {
            for _ in 0..rng.below(8) {
                text.push(rng.next() as u8);
            }
        } else {
            // The named parts come first in the list; prefer them.
            let from = if rng.one_in(4) { parts.len() } else { 10 * 65 };
            text.extend_from_slice(&parts[rng.below(from)]);
        }
    }
    text
}

fn sets(seed: u64, share: usize) -> Vec<Piece> {
    let held = std::sync::Arc::new(model::held_sets());
    let parts = std::sync::Arc::new(parts());
    let mut pieces = Vec::new();
    for mode in MODES {
        let all = held.clone();
        pieces.push(piece("every held set, every kind, every move, by its text", move |worker| {
            for set in all.iter() {
                for step in MOVES {
                    for kind in 1..=7 {
                        worker.move_by_text(mode, *set, step, kind)?;
                    }
                }
            }
            Ok(())
        }));
        let all = held.clone();
        pieces.push(piece("every held set, no subs attribute and no bytes", move |worker| {
            let long = vec![b'a'; MOST_BYTES + 1];
            for set in all.iter() {
                worker.subs(mode, *set, None, b"")?;
                worker.subs(mode, *set, None, b"quotes+,-macros")?;
                worker.subs(mode, *set, Some(b""), b"")?;
            }
            worker.subs(mode, NORMAL, None, &long)
        }));
        for half in 0..8 {
            let (all, parts) = (held.clone(), parts.clone());
            pieces.push(piece("every held set, every single part", move |worker| {
                for part in parts.iter().skip(half).step_by(8) {
                    for set in all.iter() {
                        worker.subs(mode, *set, Some(part), b"")?;
                    }
                }
                Ok(())
            }));
        }
        let all = held.clone();
        pieces.push(piece("sets one byte away from a held set", move |worker| {
            for set in all.iter() {
                for place in 0..7 {
                    for kind in [0, 1, 2, 3, 4, 5, 6, 7, 8, 128, 255] {
                        let mut near = *set;
                        near.places[place] = kind;
                        worker.subs(mode, near, Some(b"+quotes"), b"")?;
                    }
                }
                for bit in 0..8 {
                    let near = Set { flags: set.flags ^ (1 << bit), ..*set };
                    worker.subs(mode, near, Some(b"-macros,callouts+"), b"")?;
                    worker.subs(mode, near, None, b"")?;
                }
            }
            Ok(())
        }));
        for part in 0..share as u64 {
            let (all, parts, some) = (held.clone(), parts.clone(), parts.clone());
            let seed = seed.wrapping_add(9 + (part << 8));
            pieces.push(piece("random sets, held or not", move |worker| {
                let mut rng = Rng::new(seed);
                for _ in 0..100_000 {
                    let mut set = NO_SUBS;
                    for kind in &mut set.places[..rng.below(8)] {
                        *kind = rng.below(9) as u8;
                    }
                    set.flags = rng.next() as u8;
                    let part = &some[rng.below(some.len())];
                    worker.subs(mode, set, Some(part), b"")?;
                }
                Ok(())
            }));
            pieces.push(piece("random lists of parts", move |worker| {
                let mut rng = Rng::new(seed + 1);
                for _ in 0..200_000 {
                    let set = all[rng.below(all.len())];
                    let text = random_text(&mut rng, &parts);
                    worker.subs(mode, set, Some(&text), b"")?;
                }
                Ok(())
            }));
        }
        let parts = parts.clone();
        pieces.push(piece("long subs texts", move |worker| {
            let mut rng = Rng::new(seed ^ 11);
            for turn in 0..40 {
                let mut text = Vec::new();
                while text.len() < MOST_BYTES + 1 {
                    text.extend(random_text(&mut rng, &parts));
                    text.push(b',');
                }
                if turn % 4 == 0 {
                    text.fill(*rng.pick(b" ,a+"));
                }
                for len in [MOST_BYTES - 1, MOST_BYTES, MOST_BYTES + 1] {
                    for set in [NORMAL, NO_SUBS, Set { flags: 127, ..NORMAL }, Set { flags: 200, ..NORMAL }] {
                        worker.subs(mode, set, Some(&text[..len]), b"")?;
                    }
                }
            }
            Ok(())
        }));
    }
    pieces
}

// ---- moves, refusals, starting sets and flags, each by its own function

/// Every move with a kind, and whether the set is refused.
fn moves_of(worker: &mut Worker<'_>, mode: Mode, set: Set, kind: u8) -> Checked {
    for step in MOVES {
        worker.set_move(mode, set, step, kind)?;
    }
    worker.set_refusal(mode, set)
}

/// Numbers for a kind: those that name one and those next to them or at the end.
const KIND_NUMBERS: [u8; 12] = [1, 2, 3, 4, 5, 6, 7, 0, 8, 9, 128, 255];

fn moves(seed: u64, share: usize) -> Vec<Piece> {
    let held = std::sync::Arc::new(model::held_sets());
    let mut pieces = vec![piece("the starting sets", |worker| worker.starts())];
    pieces.push(piece("every flag byte, every number for a kind", |worker| {
        for flags in 0..=255 {
            for kind in 0..=255 {
                for set in [NO_SUBS, NORMAL, Set { places: [255; 7], flags: 0 }] {
                    worker.contains(Set { flags, ..set }, kind)?;
                }
            }
        }
        Ok(())
    }));
    for mode in MODES {
        let all = held.clone();
        pieces.push(piece("every held set, every number for a kind, every move", move |worker| {
            for set in all.iter() {
                for kind in 0..=255 {
                    for step in MOVES {
                        worker.set_move(mode, *set, step, kind)?;
                    }
                }
                worker.set_refusal(mode, *set)?;
            }
            Ok(())
        }));
        let all = held.clone();
        pieces.push(piece("every order, every flag byte, every move", move |worker| {
            let orders = all.iter().filter(|set| model::sound(**set));
            for (turn, set) in orders.enumerate() {
                for flags in 0..=255 {
                    let kind = KIND_NUMBERS[(turn + flags as usize) % KIND_NUMBERS.len()];
                    moves_of(worker, mode, Set { flags, ..*set }, kind)?;
                }
            }
            Ok(())
        }));
        let all = held.clone();
        pieces.push(piece("sets one place away from a held set, every move", move |worker| {
            let mut turn = 0;
            for set in all.iter() {
                for place in 0..7 {
                    for other in [0, 1, 2, 3, 4, 5, 6, 7, 8, 128, 255] {
                        let mut near = *set;
                        near.places[place] = other;
                        turn += 1;
                        moves_of(worker, mode, near, KIND_NUMBERS[turn % KIND_NUMBERS.len()])?;
                    }
                }
            }
            Ok(())
        }));
        pieces.push(piece("two places of any number, every flag byte, every move", move |worker| {
            for first in 0..=9 {
                for second in 0..=9 {
                    for flags in 0..=255 {
                        let set = Set { places: [first, second, 0, 0, 0, 0, 0], flags };
                        for kind in KIND_NUMBERS {
                            moves_of(worker, mode, set, kind)?;
                        }
                    }
                }
            }
            Ok(())
        }));
        for part in 0..share as u64 {
            let seed = seed.wrapping_add(12 + (part << 8));
            pieces.push(piece("random sets, every move", move |worker| {
                let mut rng = Rng::new(seed);
                for _ in 0..100_000 {
                    let mut set = NO_SUBS;
                    let numbers = if rng.one_in(4) { 256 } else { 9 };
                    for kind in &mut set.places[..rng.below(8)] {
                        *kind = rng.below(numbers) as u8;
                    }
                    set.flags = rng.next() as u8;
                    moves_of(worker, mode, set, rng.next() as u8 % 10)?;
                    worker.contains(set, rng.next() as u8 % 10)?;
                }
                Ok(())
            }));
        }
    }
    pieces
}

// ---- all of it

/// What the gate runs, the short cases first.
pub fn gate(seed: u64) -> Vec<Piece> {
    let mut pieces = block_tests(seed, 8);
    pieces.extend(moves(seed, 2));
    pieces.extend(sets(seed, 2));
    pieces.extend(anchor_cases::gate(seed));
    pieces.extend(exhaustive_lists(0));
    pieces.extend(damaged(seed, 8));
    pieces.extend(random_lists(seed, 20));
    pieces.extend(limits());
    pieces
}

/// Longer enumerations, for the long run; once.
pub fn longer() -> Vec<Piece> {
    let mut pieces = exhaustive_lists(1);
    pieces.extend(anchor_cases::exhaustive(1));
    pieces
}

/// Random cases of another seed, for the long run; again and again.
pub fn fresh(seed: u64) -> Vec<Piece> {
    let mut pieces = random_lists(seed, 4);
    pieces.extend(damaged(seed, 4));
    pieces.extend(anchor_cases::random(seed, 4));
    pieces.extend(block_tests(seed, 1).into_iter().filter(|p| p.class.ends_with("random lines")));
    let of_sets = sets(seed, 2).into_iter().chain(moves(seed, 2));
    pieces.extend(of_sets.filter(|p| p.class.starts_with("random") || p.class.starts_with("long")));
    pieces
}
