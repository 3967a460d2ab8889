//! What the Rust sources lean on and the source folder does not hold, so that it records what they
//! do: the arena, the AST and what the parser does with a run of tokens. `parser.rs` and
//! `unreached.rs` have the rest.

use std::borrow::Cow;
use std::cell::{Cell, RefCell};
use std::fmt;
use std::marker::PhantomData;
use std::ops::{Deref, DerefMut};

use crate::deq::Deq;
use crate::numbers::Unmarked;
use crate::parser::{ContiguousLines, Inline, MultiSourceLocation, Parser, Result, SourceLocation};
use crate::substitutions::Substitutions;
use crate::token::{Token, TokenKind};
use crate::unreached::missing;

// ---- the arena, with the one event log

/// Stands in for the arena. It owns the event log of one call.
#[derive(Default)]
pub struct Bump {
    pub log: RefCell<Vec<Unmarked>>,
    /// How often the stack of `find_delimiters` was popped: once for each comma taken back.
    pub popped: Cell<usize>,
}

impl Bump {
    fn note(&self, row: Unmarked) {
        self.log.borrow_mut().push(row);
    }
}

impl fmt::Debug for Bump {
    fn fmt(&self, f: &mut fmt::Formatter<'_>) -> fmt::Result {
        f.write_str("Bump")
    }
}

/// A vector of the arena. `record`, where set, is told of each push.
#[derive(Clone)]
pub struct BumpVec<'b, T: 'b> {
    items: Vec<T>,
    bump: &'b Bump,
    record: Option<fn(&Bump, &T)>,
}

impl<'b, T: 'b> BumpVec<'b, T> {
    pub fn new_in(bump: &'b Bump) -> Self {
        BumpVec { items: Vec::new(), bump, record: None }
    }

    pub fn with_capacity_in(capacity: usize, bump: &'b Bump) -> Self {
        BumpVec { items: Vec::with_capacity(capacity), bump, record: None }
    }

    pub fn from_iter_in(items: impl IntoIterator<Item = T>, bump: &'b Bump) -> Self {
        BumpVec { items: items.into_iter().collect(), bump, record: None }
    }

    fn recording(bump: &'b Bump, record: fn(&Bump, &T)) -> Self {
        BumpVec { items: Vec::new(), bump, record: Some(record) }
    }

    pub fn push(&mut self, item: T) {
        if let Some(record) = self.record {
            record(self.bump, &item);
        }
        self.items.push(item);
    }
}

impl BumpVec<'_, usize> {
    /// The one vector of numbers is the stack of `find_delimiters`, which pops once for each stretch
    /// that a second quote rejoins: each is counted.
    pub fn pop(&mut self) -> Option<usize> {
        let popped = self.items.pop();
        self.bump.popped.set(self.bump.popped.get() + usize::from(popped.is_some()));
        popped
    }
}

impl<'b, T: 'b> Deref for BumpVec<'b, T> {
    type Target = Vec<T>;
    fn deref(&self) -> &Vec<T> {
        &self.items
    }
}

impl<'b, T: 'b> DerefMut for BumpVec<'b, T> {
    fn deref_mut(&mut self) -> &mut Vec<T> {
        &mut self.items
    }
}

impl<'b, T: 'b> IntoIterator for BumpVec<'b, T> {
    type Item = T;
    type IntoIter = std::vec::IntoIter<T>;
    fn into_iter(self) -> Self::IntoIter {
        self.items.into_iter()
    }
}

impl<'b, T: fmt::Debug + 'b> fmt::Debug for BumpVec<'b, T> {
    fn fmt(&self, f: &mut fmt::Formatter<'_>) -> fmt::Result {
        self.items.fmt(f)
    }
}

/// A string of the arena. `pieces` counts the lexemes put into it, so that a string of no
/// token is told from one of zero-length tokens.
#[derive(Clone)]
pub struct BumpString<'b> {
    text: Cow<'b, str>,
    pieces: u32,
    bump: &'b Bump,
}

impl<'b> BumpString<'b> {
    pub fn new_in(bump: &'b Bump) -> Self {
        BumpString { text: Cow::Borrowed(""), pieces: 0, bump }
    }

    pub fn with_capacity_in(_: usize, bump: &'b Bump) -> Self {
        Self::new_in(bump)
    }

    pub fn from_str_in(s: &str, bump: &'b Bump) -> Self {
        let text = if s.is_empty() { Cow::Borrowed("") } else { Cow::Owned(s.to_string()) };
        BumpString { text, pieces: 1, bump }
    }

    /// A lexeme that stays where the caller has it.
    pub fn lent(s: &'b str, bump: &'b Bump) -> Self {
        BumpString { text: Cow::Borrowed(s), pieces: 1, bump }
    }

    pub fn push_str(&mut self, s: &str) {
        self.pieces += 1;
        if !s.is_empty() {
            self.text.to_mut().push_str(s);
        }
    }

    pub fn as_str(&self) -> &str {
        &self.text
    }

    pub fn clear(&mut self) {
        self.text = Cow::Borrowed("");
    }

    pub fn pop(&mut self) -> Option<char> {
        self.text.to_mut().pop()
    }

    pub fn remove(&mut self, at: usize) -> char {
        self.text.to_mut().remove(at)
    }
}

impl Deref for BumpString<'_> {
    type Target = str;
    fn deref(&self) -> &str {
        &self.text
    }
}

impl PartialEq for BumpString<'_> {
    fn eq(&self, other: &Self) -> bool {
        self.text == other.text
    }
}

impl Eq for BumpString<'_> {}

impl PartialEq<str> for BumpString<'_> {
    fn eq(&self, other: &str) -> bool {
        &*self.text == other
    }
}

impl PartialEq<&str> for BumpString<'_> {
    fn eq(&self, other: &&str) -> bool {
        &*self.text == *other
    }
}

impl fmt::Debug for BumpString<'_> {
    fn fmt(&self, f: &mut fmt::Formatter<'_>) -> fmt::Result {
        self.text.fmt(f)
    }
}

impl fmt::Display for BumpString<'_> {
    fn fmt(&self, f: &mut fmt::Formatter<'_>) -> fmt::Result {
        self.text.fmt(f)
    }
}

// ---- runs of tokens

impl SourceLocation {
    /// The run that it spans.
    fn run(&self) -> Run {
        Run { place: self.start - 2, count: self.end - self.start }
    }

    /// The token place at which it starts; the list's own location counts as 0.
    fn place(&self) -> u32 {
        self.start.saturating_sub(2)
    }
}

#[derive(Debug, Clone, Copy, PartialEq, Eq, Default)]
pub struct Run {
    pub place: u32,
    pub count: u32,
}

fn run_of(tokens: &Deq<'_, Token<'_>>) -> Run {
    match (tokens.first(), tokens.last()) {
        (Some(first), Some(last)) => SourceLocation::spanning(first.loc, last.loc).run(),
        _ => Run::default(),
    }
}

// ---- the AST

/// A text and its location; `born` is how many events were logged when it was made.
#[derive(Debug, Clone, PartialEq, Eq)]
pub struct SourceString<'b> {
    pub src: BumpString<'b>,
    pub loc: SourceLocation,
    born: usize,
}

impl<'b> SourceString<'b> {
    pub fn new(src: BumpString<'b>, loc: SourceLocation) -> Self {
        let born = src.bump.log.borrow().len();
        SourceString { src, loc, born }
    }

    pub fn is_empty(&self) -> bool {
        self.src.is_empty()
    }

    /// First token to last; made of no token, it is the empty run.
    pub fn run(&self) -> Run {
        if self.src.pieces == 0 { Run::default() } else { self.loc.run() }
    }
}

/// Nodes that were not made: the run of tokens they would be made of, the kind that the first of
/// these had by then, and the substitutions in force.
#[derive(Debug, Clone, PartialEq, Eq)]
pub struct InlineNodes<'b> {
    pub run: Run,
    pub first: Option<TokenKind>,
    subs: Substitutions,
    arena: PhantomData<&'b Bump>,
}

pub struct InlineNode<'b>(PhantomData<&'b Bump>);

impl<'b> InlineNode<'b> {
    pub fn new(_: Inline<'b>, _: SourceLocation) -> Self {
        missing("InlineNode::new")
    }
}

impl<'b> InlineNodes<'b> {
    pub fn new(_: &'b Bump) -> Self {
        missing("InlineNodes::new")
    }

    pub fn push(&mut self, _: InlineNode<'b>) {
        missing("InlineNodes::push")
    }

    pub fn loc(&self) -> Option<MultiSourceLocation> {
        missing("InlineNodes::loc")
    }
}

/// The list under construction. Each push is an event; the id, which the Rust assigns, is
/// put among the events by `finish`.
pub struct AttrList<'b> {
    pub loc: SourceLocation,
    pub positional: BumpVec<'b, Option<InlineNodes<'b>>>,
    pub roles: BumpVec<'b, SourceString<'b>>,
    pub options: BumpVec<'b, SourceString<'b>>,
    pub id: Option<SourceString<'b>>,
    bump: &'b Bump,
}

impl<'b> AttrList<'b> {
    pub fn new(loc: SourceLocation, bump: &'b Bump) -> Self {
        AttrList {
            loc,
            positional: BumpVec::recording(bump, |log, nodes| match nodes {
                None => log.note([1, 0, 0, 0, 0]),
                Some(nodes) => {
                    if nodes.subs != Substitutions::normal() {
                        missing("a positional attribute read under other substitutions");
                    }
                    log.note([2, nodes.run.place, nodes.run.count, 0, 0])
                }
            }),
            roles: BumpVec::recording(bump, |log, role| {
                let run = role.run();
                log.note([5, run.place, run.count, 0, 0])
            }),
            options: BumpVec::recording(bump, |log, option| {
                let run = option.run();
                log.note([6, run.place, run.count, 0, 0])
            }),
            id: None,
            bump,
        }
    }

    pub fn insert_named(&mut self, name: SourceString<'b>, nodes: InlineNodes<'b>) {
        let tag = if nodes.subs == Substitutions::attr_value() {
            3
        } else if nodes.subs == Substitutions::none() {
            8
        } else {
            missing("a named attribute read under other substitutions")
        };
        let named = name.run();
        self.bump.note([tag, named.place, named.count, nodes.run.place, nodes.run.count]);
    }

    /// Puts the id where it was read. Nothing is logged between its making and its keeping.
    pub fn finish(&self) {
        if let Some(id) = &self.id {
            let run = id.run();
            self.bump.log.borrow_mut().insert(id.born, [4, run.place, run.count, 0, 0]);
        }
    }
}

/// The attributes of a block, of which only `subs` is asked for.
pub struct MultiAttrList<'t> {
    pub subs: Option<&'t str>,
}

impl MultiAttrList<'_> {
    pub fn named(&self, name: &str) -> Option<&str> {
        if name != "subs" {
            missing("MultiAttrList::named of another name");
        }
        self.subs
    }
}

// ---- the parser

impl<'b> Parser<'b> {
    /// A diagnostic is noted and reading goes on.
    pub fn err_at(&self, message: &str, loc: SourceLocation) -> Result<()> {
        let number = match message {
            "Invalid id attribute" => 1,
            "Invalid attr list" => 2,
            "Invalid empty id attribute" => 3,
            "More than one id attribute" => 4,
            _ => missing("a diagnostic of another text"),
        };
        self.bump.note([7, loc.place(), number, 0, 0]);
        Ok(())
    }

    pub fn err_token_start(&self, message: &str, token: &Token<'b>) -> Result<()> {
        self.err_at(message, token.loc)
    }

    pub fn parse_attr_nodes(&mut self, tokens: Deq<'b, Token<'b>>) -> Result<Option<InlineNodes<'b>>> {
        Ok(Some(self.nodes(run_of(&tokens), tokens.first())))
    }

    /// A link's text, or the reference text of an anchor, in which `Line::push` may have made one
    /// token of several: what it spans counts, and not how many tokens it has.
    pub fn parse_inlines(&mut self, lines: &mut ContiguousLines<'b>) -> Result<InlineNodes<'b>> {
        let Some(line) = lines.lines.pop_front() else { missing("parse_inlines of no line") };
        if !lines.lines.is_empty() {
            missing("parse_inlines of more than one line");
        }
        let run = match line.loc() {
            Some(loc) => loc.run(),
            None => Run::default(),
        };
        Ok(self.nodes(run, line.current_token()))
    }

    fn nodes(&self, run: Run, first: Option<&Token<'b>>) -> InlineNodes<'b> {
        let first = first.map(|token| token.kind);
        InlineNodes { run, first, subs: self.ctx.subs, arena: PhantomData }
    }
}
