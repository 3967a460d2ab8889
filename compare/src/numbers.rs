//! The documents' numbers and the Rust's names for them: kinds, substitutions, entries, rows, sets,
//! their moves, and a line as it is lent.

use crate::substitutions::{Subs, Substitutions};
use crate::token::TokenKind;

/// The kinds by their numbers, 0 to 50.
pub const KINDS: [TokenKind; 51] = {
    use TokenKind::*;
    [
        Ampersand,
        AttrDef,
        AttrPassDbl,
        AttrRef,
        Backtick,
        Backslash,
        Bang,
        CalloutNumber,
        Caret,
        CloseBrace,
        CloseBracket,
        CloseParens,
        Colon,
        Comma,
        Dashes,
        DelimiterLine,
        Digits,
        Directive,
        Discard,
        DoubleQuote,
        Dots,
        Email,
        Entity,
        EqualSigns,
        Eof,
        ForwardSlashes,
        GreaterThan,
        Hash,
        LessThan,
        MacroName,
        MaybeEmail,
        Newline,
        NoBreakSpace,
        OpenBrace,
        OpenBracket,
        OpenParens,
        Percent,
        Pipe,
        Plus,
        PreprocPassthru,
        Punctuation,
        QuestionMark,
        SemiColon,
        SingleQuote,
        Star,
        TermDelimiter,
        Tilde,
        Underscore,
        UriScheme,
        Whitespace,
        Word,
    ]
};

/// The substitution kinds by their numbers, 1 to 7.
pub const SUBS: [Subs; 7] = [
    Subs::SpecialChars,
    Subs::InlineFormatting,
    Subs::AttrRefs,
    Subs::CharReplacement,
    Subs::Macros,
    Subs::PostReplacement,
    Subs::Callouts,
];

#[derive(Debug, Clone, Copy, PartialEq, Eq, PartialOrd, Ord)]
pub enum Entry {
    Block,
    BlockMacro,
    Inline,
    Link,
}

pub const ENTRIES: [Entry; 4] = [Entry::Block, Entry::BlockMacro, Entry::Inline, Entry::Link];

/// The entries of anchors: of a whole line, and inline.
#[derive(Debug, Clone, Copy, PartialEq, Eq)]
pub enum AnchorEntry {
    Block,
    Inline,
}

pub const ANCHOR_ENTRIES: [AnchorEntry; 2] = [AnchorEntry::Block, AnchorEntry::Inline];

/// A line whose texts the Rust can hold: every lexeme is UTF-8.
#[derive(Clone, Copy, PartialEq, Eq)]
pub struct Lent<'t> {
    pub kinds: &'t [u8],
    pub text: &'t [u8],
    pub pairs: &'t [u32],
}

impl<'t> Lent<'t> {
    pub fn lexeme(&self, place: usize) -> &'t [u8] {
        let offset = self.pairs[2 * place] as usize;
        &self.text[offset..offset + self.pairs[2 * place + 1] as usize]
    }
}

// ---- rows

/// How many numbers a row has: tag, two runs, quote mark.
pub const ROW: usize = 6;

/// A row. The mark says which quotes were taken off its run: 0 none, 1 double, 2 single.
pub type Row = [u32; ROW];

/// What the Rust gives of a row: all but the mark.
pub type Unmarked = [u32; ROW - 1];

/// The tags whose rows have a mark, where the run went through unquoting.
pub const MARKED: [u32; 4] = [2, 3, 4, 8];

// ---- sets

/// Seven places and a flag byte.
#[derive(Debug, Clone, Copy, PartialEq, Eq, Hash)]
#[repr(C)]
pub struct Set {
    pub places: [u8; 7],
    pub flags: u8,
}

/// Port mode is the Rust's; sheet mode is document 01's own.
#[derive(Debug, Clone, Copy, PartialEq, Eq)]
pub enum Mode {
    Port,
    Sheet,
}

pub const MODES: [Mode; 2] = [Mode::Port, Mode::Sheet];

#[derive(Debug, Clone, Copy, PartialEq, Eq)]
pub enum Move {
    Insert,
    Remove,
    Prepend,
}

pub const MOVES: [Move; 3] = [Move::Insert, Move::Remove, Move::Prepend];

/// The sets that the Rust starts with.
pub const STARTS: [(&str, fn() -> Substitutions); 6] = [
    ("none", Substitutions::none),
    ("normal", Substitutions::normal),
    ("verbatim", Substitutions::verbatim),
    ("attr_value", Substitutions::attr_value),
    ("only_special_chars", Substitutions::only_special_chars),
    ("all", Substitutions::all),
];

/// The Rust's own test of each kind's flag, 1 to 7.
pub const FLAG_TESTS: [fn(&Substitutions) -> bool; 7] = [
    Substitutions::special_chars,
    Substitutions::inline_formatting,
    Substitutions::attr_refs,
    Substitutions::char_replacement,
    Substitutions::macros,
    Substitutions::post_replacement,
    Substitutions::callouts,
];

pub const NORMAL: Set = Set { places: [1, 2, 3, 4, 5, 6, 0], flags: 63 };
pub const NO_SUBS: Set = Set { places: [0; 7], flags: 0 };

pub fn to_rust(set: Set) -> Substitutions {
    let order = set.places.map(|kind| if kind == 0 { None } else { Some(SUBS[kind as usize - 1]) });
    Substitutions { order, flags: set.flags }
}

pub fn of_rust(subs: Substitutions) -> Set {
    let places = subs.order.map(|kind| match kind {
        None => 0,
        Some(kind) => 1 + SUBS.iter().position(|k| *k == kind).expect("one of seven") as u8,
    });
    Set { places, flags: subs.flags }
}
