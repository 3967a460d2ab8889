//! The Rust, with its real arena and recorders off.

use crate::customize_subs;
use crate::deq::Deq;
use crate::line::Line;
use crate::parse_attr_list::AnchorSrc;
use crate::parser::{Parser, SourceLocation};
use crate::sources::parse_inline_anchor;
use crate::stand_in::{AttrList, Bump, BumpString, MultiAttrList};
use crate::token::Token;

pub use crate::numbers::*;

/// The line's tokens in the arena, as the lexer would leave them there.
pub fn line_of<'b>(lent: Lent<'_>, bump: &'b Bump) -> Line<'b> {
    let mut tokens = Deq::with_capacity(lent.kinds.len(), bump);
    for (place, kind) in lent.kinds.iter().enumerate() {
        let lexeme = std::str::from_utf8(lent.lexeme(place)).expect("a lexeme of the benchmark is UTF-8");
        tokens.push(Token::new(
            KINDS[*kind as usize],
            SourceLocation::of_token(place),
            BumpString::from_str_in(lexeme, bump),
        ));
    }
    Line::new(tokens)
}

/// Reads a line by an entry. Every line of the benchmark is one that the Rust reads.
#[inline(never)]
pub fn read<'b>(entry: Entry, line: &mut Line<'b>, bump: &'b Bump) -> AttrList<'b> {
    let mut parser = Parser::new(bump);
    match entry {
        Entry::Block => parser.parse_block_attr_list(line),
        Entry::BlockMacro => parser.parse_block_macro_attr_list(line),
        Entry::Inline => parser.parse_inline_macro_attr_list(line),
        Entry::Link => parser.parse_link_macro_attr_list(line),
    }
    .expect("no recorder gives an error")
}

/// The anchor of a line. Every line of the benchmark that is lent to it has one.
#[inline(never)]
pub fn anchor<'b>(entry: AnchorEntry, line: &mut Line<'b>, bump: &'b Bump) -> AnchorSrc<'b> {
    let mut parser = Parser::new(bump);
    match entry {
        AnchorEntry::Block => parser.parse_block_anchor(line),
        AnchorEntry::Inline => parse_inline_anchor(&mut parser, line),
    }
    .expect("no recorder gives an error")
    .expect("the line has an anchor")
}

#[inline(never)]
pub fn is_block_attr_list(line: &Line<'_>) -> bool {
    line.is_block_attr_list()
}

#[inline(never)]
pub fn from_meta(
    current: crate::substitutions::Substitutions,
    text: &str,
) -> crate::substitutions::Substitutions {
    customize_subs::from_meta(current, &MultiAttrList { subs: Some(text) })
}

/// With no subs attribute.
#[inline(never)]
pub fn from_no_meta(current: crate::substitutions::Substitutions) -> crate::substitutions::Substitutions {
    customize_subs::from_meta(current, &MultiAttrList { subs: None })
}
