//! The answers of the Rust, in document 01's numbers: a row without its quote mark, which the Rust
//! does not have.

use std::cell::{Cell, RefCell};
use std::collections::BTreeMap;
use std::panic::{AssertUnwindSafe, catch_unwind};

use crate::customize_subs;
use crate::deq::Deq;
use crate::library::Anchor;
use crate::line::Line;
use crate::parse_attr_list::AnchorSrc;
use crate::parser::{Parser, SourceLocation};
use crate::sources::parse_inline_anchor;
use crate::stand_in::{Bump, BumpString, MultiAttrList, Run};
use crate::substitutions::Substitutions;
use crate::token::{Token, TokenKind};

pub use crate::numbers::*;

/// What the Rust did with a line.
#[derive(Debug, Clone, Copy, PartialEq, Eq)]
pub enum Outcome {
    /// Read; the tokens consumed, and how often the stack of delimiting was popped. The rows are in
    /// the log.
    Read { consumed: usize, rejoined: usize },
    /// Read as a link's text, closed by a token that is no CloseBracket: outside the domain.
    OtherClosing(usize),
    /// It panicked.
    Panicked,
}

fn line_of<'b>(lent: Lent<'b>, bump: &'b Bump) -> Line<'b> {
    let mut tokens = Deq::with_capacity(lent.kinds.len(), bump);
    for (place, kind) in lent.kinds.iter().enumerate() {
        let lexeme = std::str::from_utf8(lent.lexeme(place)).expect("a lexeme of the harness is UTF-8");
        tokens.push(Token::new(
            KINDS[*kind as usize],
            SourceLocation::of_token(place),
            BumpString::lent(lexeme, bump),
        ));
    }
    Line::new(tokens)
}

/// Reads a line that passed checks 1 to 6. The rows go to `rows`.
pub fn read(entry: Entry, lent: Lent<'_>, rows: &mut Vec<Unmarked>) -> Outcome {
    rows.clear();
    let bump = Bump { log: RefCell::new(std::mem::take(rows)), ..Bump::default() };
    let outcome = {
        let mut line = line_of(lent, &bump);
        let consumed = without_a_word("8", || {
            let mut parser = Parser::new(&bump);
            let read = match entry {
                Entry::Block => parser.parse_block_attr_list(&mut line),
                Entry::BlockMacro => parser.parse_block_macro_attr_list(&mut line),
                Entry::Inline => parser.parse_inline_macro_attr_list(&mut line),
                Entry::Link => parser.parse_link_macro_attr_list(&mut line),
            };
            read.expect("no recorder gives an error").finish();
            lent.kinds.len() - line.num_tokens()
        });
        match consumed {
            None => Outcome::Panicked,
            Some(n) if KINDS[lent.kinds[n - 1] as usize] != TokenKind::CloseBracket => {
                Outcome::OtherClosing(n)
            }
            Some(consumed) => Outcome::Read { consumed, rejoined: bump.popped.get() },
        }
    };
    *rows = bump.log.into_inner();
    outcome
}

pub fn is_block_attr_list(lent: Lent<'_>) -> bool {
    let bump = Bump::default();
    line_of(lent, &bump).is_block_attr_list()
}

// ---- anchors

/// Reads the line of an anchor that passed checks 1 to 6; a panic is 12. An error says that the id's
/// text is not that of its tokens.
pub fn anchor(entry: AnchorEntry, lent: Lent<'_>) -> Result<Anchor, String> {
    let bump = Bump::default();
    let mut line = line_of(lent, &bump);
    let read = without_a_word("12", || {
        let mut parser = Parser::new(&bump);
        let read = match entry {
            AnchorEntry::Block => parser.parse_block_anchor(&mut line),
            AnchorEntry::Inline => parse_inline_anchor(&mut parser, &mut line),
        };
        read.expect("no recorder gives an error")
    });
    let consumed = lent.kinds.len() - line.num_tokens();
    match read {
        None => Ok(Anchor::refused(12)),
        Some(None) => Ok(Anchor { consumed, ..Anchor::default() }),
        Some(Some(found)) => anchor_found(lent, &found, consumed),
    }
}

/// An anchor in numbers. Its runs are by where the Rust says that its texts come from.
fn anchor_found(lent: Lent<'_>, found: &AnchorSrc<'_>, consumed: usize) -> Result<Anchor, String> {
    let id = found.id.run();
    let lexemes: Vec<u8> = (id.place..id.place + id.count)
        .flat_map(|place| lent.lexeme(place as usize).iter().copied())
        .collect();
    if found.id.src.as_bytes() != lexemes {
        return Err(format!("the Rust's id is {}, and its run is {id:?}", found.id.src));
    }
    let text = found.reftext.as_ref().map_or(Run::default(), |nodes| nodes.run);
    let first = found.reftext.as_ref().and_then(|nodes| nodes.first);
    Ok(Anchor {
        refusal: 0,
        anchor: 1,
        id_place: id.place as usize,
        id_count: id.count as usize,
        text_place: text.place as usize,
        text_count: text.count as usize,
        consumed,
        discard: usize::from(first == Some(TokenKind::Discard)),
    })
}

// ---- sets

/// `from_meta` on a set whose places are 0 to 7; None if it panicked.
pub fn from_meta(set: Set, text: Option<&str>) -> Option<Set> {
    let current = to_rust(set);
    without_a_word("no refusal", || {
        of_rust(customize_subs::from_meta(current, &MultiAttrList { subs: text }))
    })
}

/// A move with the kind of number 1 to 7; None if it panicked.
pub fn set_move(set: Set, step: Move, kind: u8) -> Option<Set> {
    let mut subs = to_rust(set);
    let kind = SUBS[kind as usize - 1];
    without_a_word("no refusal", || {
        match step {
            Move::Insert => subs.insert(kind),
            Move::Remove => subs.remove(kind),
            Move::Prepend => subs.prepend(kind),
        }
        of_rust(subs)
    })
}

/// Is the kind of number 1 to 7 in the set? The Rust looks at the flags alone, and has two ways
/// to ask.
pub fn contains(flags: u8, kind: u8) -> [bool; 2] {
    let subs = Substitutions { order: [None; 7], flags };
    let at = kind as usize - 1;
    [subs.contains(SUBS[at]), FLAG_TESTS[at](&subs)]
}

// ---- panics

thread_local! {
    /// What is due where the Rust panics, while it may panic.
    static DUE: Cell<Option<&'static str>> = const { Cell::new(None) };
    static PANICS: RefCell<BTreeMap<String, u64>> = const { RefCell::new(BTreeMap::new()) };
}

/// Panics of the Rust say nothing but are counted by where they arose and what is then due; all
/// others speak.
pub fn watch_panics() {
    let usual = std::panic::take_hook();
    std::panic::set_hook(Box::new(move |info| {
        let Some(due) = DUE.get() else { return usual(info) };
        let (file, line) = info.location().map_or(("an unknown place", 0), |l| (l.file(), l.line()));
        let file = file.rsplit('/').next().unwrap_or("");
        let panic = format!("{file}:{line}, where {due} is due");
        PANICS.with_borrow_mut(|panics| *panics.entry(panic).or_insert(0) += 1);
    }));
}

/// This thread's panics of the Rust, by place and what was due.
pub fn panics() -> BTreeMap<String, u64> {
    PANICS.with_borrow(|panics| panics.clone())
}

fn without_a_word<T>(due: &'static str, call: impl FnOnce() -> T) -> Option<T> {
    DUE.set(Some(due));
    let answer = catch_unwind(AssertUnwindSafe(call));
    DUE.set(None);
    answer.ok()
}
