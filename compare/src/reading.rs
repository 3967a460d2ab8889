//! A line read from the words of document 01 and, for the quote mark and the commas taken back, of
//! document 02 (Slips 2 and 5), with no eye on either program: whole rows of six numbers. The Rust
//! gives the first five numbers of each row, and every case holds this reading to them, and to how
//! often the Rust's stack of delimiting is popped. The sixth number, which the Rust does not have, is
//! due from here alone: it is what `unquote` says that it took off the run of the row.

use crate::numbers::{Entry, KINDS, Lent, Row};
use crate::token::TokenKind::{self, *};

/// A token that is kept: any but AttrRef.
#[derive(Clone, Copy)]
struct Kept {
    place: u32,
    kind: TokenKind,
    length: u32,
}

type Run = [u32; 2];

const NOTHING: Run = [0, 0];

/// "First kept token to last."
fn run(tokens: &[Kept]) -> Run {
    match (tokens.first(), tokens.last()) {
        (Some(first), Some(last)) => [first.place, last.place - first.place + 1],
        _ => NOTHING,
    }
}

fn trim(mut tokens: &[Kept]) -> &[Kept] {
    while let [Kept { kind: Whitespace, .. }, rest @ ..] = tokens {
        tokens = rest;
    }
    while let [rest @ .., Kept { kind: Whitespace, .. }] = tokens {
        tokens = rest;
    }
    tokens
}

/// "Takes the first and last token if there are two or more and both are DoubleQuote or both
/// SingleQuote", and reports "which were taken: 0 none, 1 double, 2 single".
fn unquote(tokens: &[Kept]) -> (&[Kept], u32) {
    let [first, inside @ .., last] = tokens else { return (tokens, 0) };
    match (first.kind, last.kind) {
        (DoubleQuote, DoubleQuote) => (inside, 1),
        (SingleQuote, SingleQuote) => (inside, 2),
        _ => (tokens, 0),
    }
}

fn kind(line: Lent<'_>, place: usize) -> TokenKind {
    KINDS[line.kinds[place] as usize]
}

fn is_symbol(token: &Kept) -> bool {
    matches!(token.kind, Dots | Hash | Percent)
}

/// What a list is read with.
struct List<'l> {
    line: Lent<'l>,
    block: bool,
    has_id: bool,
    rows: &'l mut Vec<Row>,
}

enum Form {
    Shorthand,
    Named,
    /// With the note of a symbol that was not first.
    Positional(bool),
}

impl List<'_> {
    fn put(&mut self, tag: u32, first: Run, second: Run, mark: u32) {
        self.rows.push([tag, first[0], first[1], second[0], second[1], mark]);
    }

    fn diagnostic(&mut self, number: u32, place: u32) {
        self.put(7, [place, number], NOTHING, 0);
    }

    fn lexeme(&self, token: &Kept) -> &[u8] {
        self.line.lexeme(token.place as usize)
    }

    fn attribute(&mut self, tokens: &[Kept]) {
        let tokens = trim(tokens);
        if tokens.is_empty() {
            return self.put(1, NOTHING, NOTHING, 0);
        }
        match self.decided(tokens) {
            Form::Shorthand => self.shorthand(tokens),
            Form::Named => self.named(tokens),
            Form::Positional(note) => self.positional(tokens, note),
        }
    }

    /// "Look from the left until decided."
    fn decided(&self, tokens: &[Kept]) -> Form {
        let mut note = false;
        for (at, token) in tokens.iter().enumerate() {
            let next = tokens.get(at + 1);
            match token.kind {
                Dots | Hash | Percent if token.length == 1 => {
                    if at == 0 && next.is_some() && self.block {
                        return Form::Shorthand;
                    }
                    note = next.is_none_or(|next| next.kind != Whitespace);
                }
                DoubleQuote | SingleQuote => break,
                Whitespace
                    if next.is_none_or(|next| next.kind != EqualSigns || self.lexeme(next) != b"=") =>
                {
                    break;
                }
                EqualSigns if at == 0 => break,
                EqualSigns if token.length == 1 => return Form::Named,
                _ => {}
            }
        }
        Form::Positional(note)
    }

    fn positional(&mut self, tokens: &[Kept], note: bool) {
        let (text, mark) = unquote(tokens);
        if mark != 0 || !note || !self.block {
            return self.put(2, run(text), NOTHING, mark);
        }
        let (before, tail) = text.split_at(text.iter().position(is_symbol).expect("one was noted"));
        if before.is_empty() {
            return self.diagnostic(2, tail[0].place);
        }
        self.put(2, run(before), NOTHING, mark);
        self.attribute(tail);
    }

    fn named(&mut self, tokens: &[Kept]) {
        let equals = tokens.iter().position(|token| token.kind == EqualSigns).expect("one decided");
        let name = &tokens[..equals];
        let value = match &tokens[equals + 1..] {
            [Kept { kind: Whitespace, .. }, rest @ ..] => rest,
            all => all,
        };
        let (value, mark) = unquote(value);
        if self.says(name, b"options") || self.says(name, b"opts") {
            self.groups(6, Comma, value);
        } else if self.says(name, b"role") {
            self.groups(5, Whitespace, value);
        } else if self.says(name, b"id") {
            self.id(value, mark);
        } else {
            let tag = if self.says(name, b"subs") || self.says(name, b"cols") { 8 } else { 3 };
            self.put(tag, run(trim(name)), run(value), mark);
        }
    }

    /// Is this the name, "less Whitespace"?
    fn says(&self, name: &[Kept], word: &[u8]) -> bool {
        let mut rest = Some(word);
        for token in name.iter().filter(|token| token.kind != Whitespace) {
            rest = rest.and_then(|rest| rest.strip_prefix(self.lexeme(token)));
        }
        rest.is_some_and(<[u8]>::is_empty)
    }

    /// Roles and options have no mark, also where their list stood in quotes.
    fn groups(&mut self, tag: u32, divider: TokenKind, value: &[Kept]) {
        for group in value.split(|token| token.kind == divider) {
            let group = trim(group);
            if !group.is_empty() {
                self.put(tag, run(group), NOTHING, 0);
            }
        }
    }

    fn id(&mut self, value: &[Kept], mark: u32) {
        let Some(first) = value.first() else { return self.diagnostic(3, 0) };
        if self.has_id {
            return self.diagnostic(4, first.place);
        }
        self.has_id = true;
        self.put(4, run(value), NOTHING, mark);
    }

    /// No run of shorthand goes through unquoting: its id has the mark 0.
    fn shorthand(&mut self, tokens: &[Kept]) {
        let ends = |token: &Kept| is_symbol(token) && (token.kind != Dots || token.length == 1);
        let mut rest = tokens;
        while let [symbol, behind @ ..] = rest {
            if behind.is_empty() {
                return self.diagnostic(1, symbol.place);
            }
            if symbol.kind == Hash && self.has_id {
                return self.diagnostic(4, symbol.place);
            }
            self.has_id |= symbol.kind == Hash;
            let tag = match symbol.kind {
                Dots => 5,
                Hash => 4,
                _ => 6,
            };
            let (taken, next) = behind.split_at(behind.iter().position(ends).unwrap_or(behind.len()));
            self.put(tag, run(taken), NOTHING, 0);
            rest = next;
        }
    }
}

/// The places of the commas that divide; gives how many were taken back. As the count goes on, there is
/// one stretch more than commas that are there.
fn delimit(line: Lent<'_>, commas: &mut Vec<usize>) -> usize {
    commas.clear();
    let mut rejoined = 0;
    let mut noted: [Option<usize>; 2] = [None; 2];
    for place in 0..line.kinds.len() - 1 {
        let quote = match kind(line, place) {
            CloseBracket => break,
            Comma => {
                commas.push(place);
                continue;
            }
            DoubleQuote => 0,
            SingleQuote => 1,
            _ => continue,
        };
        match noted[quote].take() {
            None => noted[quote] = Some(commas.len()),
            Some(stretches) => rejoined += commas.drain(stretches.min(commas.len())..).count(),
        }
    }
    rejoined
}

/// How many counted commas stand inside a complete pair of quotes: where pairs cross, these can be more
/// than are taken back.
pub fn commas_inside(line: Lent<'_>) -> usize {
    let last = line.kinds.len() - 1;
    let counted = (0..last).find(|place| kind(line, *place) == CloseBracket).unwrap_or(last);
    let mut inside = vec![false; counted];
    for quote in [DoubleQuote, SingleQuote] {
        let quotes: Vec<usize> = (0..counted).filter(|place| kind(line, *place) == quote).collect();
        for pair in quotes.chunks_exact(2) {
            inside[pair[0]..pair[1]].fill(true);
        }
    }
    (0..counted).filter(|place| inside[*place] && kind(line, *place) == Comma).count()
}

/// Where the list closes; None is refusal 8. `from` is behind the last dividing comma.
fn closing(entry: Entry, line: Lent<'_>, from: usize) -> Option<usize> {
    let last = line.kinds.len() - 1;
    let closes = |place: &usize| kind(line, *place) == CloseBracket;
    match entry {
        Entry::Block | Entry::BlockMacro => Some(last).filter(closes),
        Entry::Inline | Entry::Link if closes(&from) => Some(from),
        Entry::Inline | Entry::Link => {
            (from + 1..=last).filter(closes).find(|place| kind(line, place - 1) != Backslash)
        }
    }
}

/// Where a link's text ends, after `_parse_link_macro_attr_list`; None where it is a list.
fn link_text(line: Lent<'_>) -> Option<usize> {
    let (mut quoted, mut nested, mut escaped) = (false, false, false);
    let last = line.kinds.len() - 1;
    for place in 0..last {
        let kind = kind(line, place);
        match kind {
            CloseBracket if nested => nested = false,
            CloseBracket | OpenBracket | DoubleQuote if escaped => {}
            CloseBracket => return Some(place),
            OpenBracket => nested = true,
            DoubleQuote => quoted = !quoted,
            EqualSigns if line.pairs[2 * place + 1] == 1 && !quoted => return None,
            _ => {}
        }
        escaped = kind == Backslash;
    }
    Some(last)
}

/// The reading of one line; it is used again from line to line.
#[derive(Default)]
pub struct Reading {
    pub rows: Vec<Row>,
    /// The commas taken back: 0 of a line that is refused or no list.
    pub rejoined: usize,
    kept: Vec<Kept>,
    commas: Vec<usize>,
}

impl Reading {
    /// What is due of a line that is refused: no row, and no comma taken back.
    pub fn clear(&mut self) {
        self.rows.clear();
        self.rejoined = 0;
    }

    /// Reads a line that passed checks 1 to 6. Gives the tokens consumed and leaves the rows and the
    /// commas taken back; None, and none of either, is refusal 8.
    pub fn read(&mut self, entry: Entry, line: Lent<'_>) -> Option<usize> {
        self.clear();
        if kind(line, 0) == CloseBracket {
            return Some(1);
        }
        if entry == Entry::Link
            && let Some(end) = link_text(line)
        {
            return self.text(line, end);
        }
        let rejoined = delimit(line, &mut self.commas);
        let end = closing(entry, line, self.commas.last().map_or(0, |comma| comma + 1))?;
        self.rejoined = rejoined;
        let mut list = List { line, block: entry == Entry::Block, has_id: false, rows: &mut self.rows };
        let mut from = 0;
        for to in self.commas.iter().copied().chain([end]) {
            keep(line, from, to, &mut self.kept);
            list.attribute(&self.kept);
            from = to + 1;
        }
        Some(end + 1)
    }

    /// "One tag 2 row, AttrRef dropped, unquoted, untrimmed, consumed through the bracket."
    fn text(&mut self, line: Lent<'_>, end: usize) -> Option<usize> {
        if kind(line, end) != CloseBracket {
            return None;
        }
        keep(line, 0, end, &mut self.kept);
        let (text, mark) = unquote(&self.kept);
        let [place, count] = run(text);
        self.rows.push([2, place, count, 0, 0, mark]);
        Some(end + 1)
    }
}

/// "AttrRef is dropped."
fn keep(line: Lent<'_>, from: usize, to: usize, kept: &mut Vec<Kept>) {
    kept.clear();
    kept.extend((from..to).filter(|place| kind(line, *place) != AttrRef).map(|place| Kept {
        place: place as u32,
        kind: kind(line, place),
        length: line.pairs[2 * place + 1],
    }));
}
