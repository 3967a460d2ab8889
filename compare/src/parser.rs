//! What both stand-ins have of asciidork alike, as far as the Rust sources reach it: source
//! locations, and the parser's state. `stand_in` is the module that records (here) or measures (in
//! the benchmark), and has the arena, the texts and nodes in it, and what the parser does with them.

use crate::deq::Deq;
use crate::line::Line;
use crate::stand_in::{Bump, BumpString, SourceString};
use crate::substitutions::Substitutions;
use crate::token::TokenSpec;
use crate::unreached::missing;

pub type Result<T> = std::result::Result<T, ()>;

#[derive(Debug, Clone, Copy, PartialEq, Eq, Default)]
pub struct SourceLocation {
    pub start: u32,
    pub end: u32,
    pub include_depth: u16,
}

impl SourceLocation {
    pub const fn new(start: u32, end: u32, include_depth: u16) -> Self {
        SourceLocation { start, end, include_depth }
    }

    /// Where token number `place` stands: token i at start i + 2, end i + 3; the opening bracket of
    /// a list at 1, the two of an anchor at 0 and 1.
    pub fn of_token(place: usize) -> Self {
        Self::new(place as u32 + 2, place as u32 + 3, 0)
    }

    pub fn spanning(first: Self, last: Self) -> Self {
        Self::new(first.start, last.end, first.include_depth)
    }

    pub fn extend(&mut self, other: Self) {
        self.end = other.end;
    }

    pub fn decr_start(&self) -> Self {
        Self::new(self.start - 1, self.end, self.include_depth)
    }

    pub fn incr_end(&self) -> Self {
        Self::new(self.start, self.end + 1, self.include_depth)
    }

    pub fn clamp_start(&self) -> Self {
        Self::new(self.start, self.start, self.include_depth)
    }
}

pub struct MultiSourceLocation;

impl MultiSourceLocation {
    pub fn coalesce(self) -> Option<SourceLocation> {
        missing("MultiSourceLocation::coalesce")
    }
}

pub enum Inline<'b> {
    Text(BumpString<'b>),
}

#[derive(Debug, Clone, Copy, PartialEq, Eq)]
pub enum InlineCtx {
    None,
    LinkMacroAttrs,
}

impl InlineCtx {
    pub fn specs(&self) -> Option<&'static [TokenSpec]> {
        missing("InlineCtx::specs")
    }
}

pub struct ParseContext {
    pub subs: Substitutions,
    pub inline_ctx: InlineCtx,
}

pub struct Lexer;

impl Lexer {
    pub fn is_builtin_macro_name(_: &[u8]) -> bool {
        missing("Lexer::is_builtin_macro_name")
    }

    pub fn src_string_from_loc<'b>(&self, _: SourceLocation) -> SourceString<'b> {
        missing("Lexer::src_string_from_loc")
    }
}

pub struct Parser<'b> {
    pub bump: &'b Bump,
    pub ctx: ParseContext,
    pub lexer: Lexer,
}

impl<'b> Parser<'b> {
    pub fn new(bump: &'b Bump) -> Self {
        let ctx = ParseContext { subs: Substitutions::normal(), inline_ctx: InlineCtx::None };
        Parser { bump, ctx, lexer: Lexer }
    }

    pub fn string(&self, s: &str) -> BumpString<'b> {
        BumpString::from_str_in(s, self.bump)
    }
}

pub struct ContiguousLines<'b> {
    pub lines: Deq<'b, Line<'b>>,
}

impl<'b> ContiguousLines<'b> {
    pub fn new(lines: Deq<'b, Line<'b>>) -> Self {
        ContiguousLines { lines }
    }
}

impl<'b> crate::deq::DefaultIn<'b> for Line<'b> {
    fn default_in(bump: &'b Bump) -> Self {
        Line::empty(bump)
    }
}
