//! What the Rust sources lean on, for the benchmark: the real arena (bumpalo), and recorders
//! that record nothing. A run of tokens becomes no nodes, a diagnostic is not noted; what the
//! Rust would do there beyond reading the list is left out of its time.

use std::marker::PhantomData;

pub use bumpalo::Bump;
pub use bumpalo::collections::{String as BumpString, Vec as BumpVec};

use crate::deq::Deq;
use crate::parser::{ContiguousLines, Inline, MultiSourceLocation, Parser, Result, SourceLocation};
use crate::token::Token;
use crate::unreached::missing;

#[derive(Debug, Clone, PartialEq, Eq)]
pub struct SourceString<'b> {
    pub src: BumpString<'b>,
    pub loc: SourceLocation,
}

impl<'b> SourceString<'b> {
    pub fn new(src: BumpString<'b>, loc: SourceLocation) -> Self {
        SourceString { src, loc }
    }

    pub fn is_empty(&self) -> bool {
        self.src.is_empty()
    }
}

/// Nodes that were not made.
#[derive(Debug, Clone, PartialEq, Eq)]
pub struct InlineNodes<'b>(PhantomData<&'b ()>);

pub struct InlineNode<'b>(PhantomData<&'b ()>);

impl<'b> InlineNode<'b> {
    pub fn new(_: Inline<'b>, _: SourceLocation) -> Self {
        missing("InlineNode::new")
    }
}

impl<'b> InlineNodes<'b> {
    pub fn new(_: &'b Bump) -> Self {
        missing("InlineNodes::new")
    }

    pub fn push(&mut self, _: InlineNode<'b>) {
        missing("InlineNodes::push")
    }

    pub fn loc(&self) -> Option<MultiSourceLocation> {
        missing("InlineNodes::loc")
    }
}

/// The list under construction, in the arena.
pub struct AttrList<'b> {
    pub loc: SourceLocation,
    pub positional: BumpVec<'b, Option<InlineNodes<'b>>>,
    pub named: BumpVec<'b, (SourceString<'b>, InlineNodes<'b>)>,
    pub roles: BumpVec<'b, SourceString<'b>>,
    pub options: BumpVec<'b, SourceString<'b>>,
    pub id: Option<SourceString<'b>>,
}

impl<'b> AttrList<'b> {
    pub fn new(loc: SourceLocation, bump: &'b Bump) -> Self {
        AttrList {
            loc,
            positional: BumpVec::new_in(bump),
            named: BumpVec::new_in(bump),
            roles: BumpVec::new_in(bump),
            options: BumpVec::new_in(bump),
            id: None,
        }
    }

    pub fn insert_named(&mut self, name: SourceString<'b>, nodes: InlineNodes<'b>) {
        self.named.push((name, nodes));
    }

    /// What it holds, each as one row would: diagnostics are not among it.
    pub fn rows(&self) -> usize {
        self.positional.len()
            + self.named.len()
            + self.roles.len()
            + self.options.len()
            + usize::from(self.id.is_some())
    }
}

/// The attributes of a block, of which only `subs` is asked for.
pub struct MultiAttrList<'t> {
    pub subs: Option<&'t str>,
}

impl MultiAttrList<'_> {
    pub fn named(&self, _: &str) -> Option<&str> {
        self.subs
    }
}

impl<'b> Parser<'b> {
    pub fn err_at(&self, _: &str, _: SourceLocation) -> Result<()> {
        Ok(())
    }

    pub fn err_token_start(&self, _: &str, _: &Token<'b>) -> Result<()> {
        Ok(())
    }

    pub fn parse_attr_nodes(&mut self, _: Deq<'b, Token<'b>>) -> Result<Option<InlineNodes<'b>>> {
        Ok(Some(InlineNodes(PhantomData)))
    }

    pub fn parse_inlines(&mut self, _: &mut ContiguousLines<'b>) -> Result<InlineNodes<'b>> {
        Ok(InlineNodes(PhantomData))
    }
}
