//! Lines of tokens: the significant tokens, and ways to build lines from them.

use crate::rng::Rng;
use crate::rust_side::{KINDS, Lent};
use crate::token::TokenKind::{self, *};

/// A token by kind and text.
pub type Tok = (TokenKind, &'static str);

pub const A: Tok = (Word, "a");
pub const REF: Tok = (AttrRef, "{x}");
pub const SPACE: Tok = (Whitespace, " ");
pub const COMMA: Tok = (Comma, ",");
pub const DOUBLE: Tok = (DoubleQuote, "\"");
pub const SINGLE: Tok = (SingleQuote, "'");
pub const EQUAL: Tok = (EqualSigns, "=");
pub const EQUALS: Tok = (EqualSigns, "==");
pub const DOT: Tok = (Dots, ".");
pub const DOTS: Tok = (Dots, "...");
pub const HASH: Tok = (Hash, "#");
pub const PERCENT: Tok = (Percent, "%");
pub const OPEN: Tok = (OpenBracket, "[");
pub const CLOSE: Tok = (CloseBracket, "]");
pub const BACK: Tok = (Backslash, "\\");

/// A line as it is lent: three vectors of its own.
#[derive(Clone, Default)]
pub struct LineBuf {
    pub kinds: Vec<u8>,
    pub text: Vec<u8>,
    pub pairs: Vec<u32>,
}

impl LineBuf {
    pub fn clear(&mut self) {
        self.kinds.clear();
        self.text.clear();
        self.pairs.clear();
    }

    pub fn push(&mut self, kind: TokenKind, lexeme: &[u8]) {
        self.kinds.push(kind as u8);
        self.pairs.push(self.text.len() as u32);
        self.pairs.push(lexeme.len() as u32);
        self.text.extend_from_slice(lexeme);
    }

    pub fn push_all(&mut self, tokens: &[Tok]) {
        for (kind, text) in tokens {
            self.push(*kind, text.as_bytes());
        }
    }

    /// Makes it a copy of another.
    pub fn set(&mut self, line: Lent<'_>) {
        self.clear();
        self.kinds.extend_from_slice(line.kinds);
        self.text.extend_from_slice(line.text);
        self.pairs.extend_from_slice(line.pairs);
    }

    pub fn of(tokens: &[Tok]) -> Self {
        let mut line = LineBuf::default();
        line.push_all(tokens);
        line
    }

    pub fn lent(&self) -> Lent<'_> {
        Lent { kinds: &self.kinds, text: &self.text, pairs: &self.pairs }
    }

    /// A line from plain text: repeated dots and equal signs are one token, `{..}` is AttrRef,
    /// spaces are one Whitespace, digits Digits, every other run of letters a Word. A token
    /// that this does not tell apart is written out: `⟨MaybeEmail u@ex.com⟩`.
    pub fn lex(text: &str) -> Self {
        let mut line = LineBuf::default();
        let mut rest = text;
        while let Some(first) = rest.chars().next() {
            if let Some((kind, lexeme, behind)) = written_out(rest) {
                line.push(kind, lexeme.as_bytes());
                rest = behind;
                continue;
            }
            let run = |same: &dyn Fn(char) -> bool| rest.find(|c: char| !same(c)).unwrap_or(rest.len());
            let mark = match first {
                ']' => Some(CloseBracket),
                '[' => Some(OpenBracket),
                ',' => Some(Comma),
                '"' => Some(DoubleQuote),
                '\'' => Some(SingleQuote),
                '#' => Some(Hash),
                '%' => Some(Percent),
                '\\' => Some(Backslash),
                '*' => Some(Star),
                '_' => Some(Underscore),
                '`' => Some(Backtick),
                '+' => Some(Plus),
                '^' => Some(Caret),
                '~' => Some(Tilde),
                '!' => Some(Bang),
                '?' => Some(QuestionMark),
                ':' => Some(Colon),
                ';' => Some(SemiColon),
                '<' => Some(LessThan),
                '>' => Some(GreaterThan),
                '|' => Some(Pipe),
                '&' => Some(Ampersand),
                '}' => Some(CloseBrace),
                '\n' => Some(Newline),
                _ => None,
            };
            let (kind, len) = match first {
                _ if mark.is_some() => (mark.unwrap(), 1),
                '.' => (Dots, run(&|c| c == '.')),
                '=' => (EqualSigns, run(&|c| c == '=')),
                '-' => (Dashes, run(&|c| c == '-')),
                '/' => (ForwardSlashes, run(&|c| c == '/')),
                '(' => (OpenParens, run(&|c| c == '(')),
                ')' => (CloseParens, run(&|c| c == ')')),
                ' ' | '\t' => (Whitespace, run(&|c| c == ' ' || c == '\t')),
                '0'..='9' => (Digits, run(&|c| c.is_ascii_digit())),
                '{' => match rest.find('}') {
                    Some(end) => (AttrRef, end + 1),
                    None => (OpenBrace, 1),
                },
                _ => (Word, run(&|c| c != '⟨' && (c.is_alphanumeric() || !c.is_ascii()))),
            };
            let len = len.max(first.len_utf8());
            line.push(kind, &rest.as_bytes()[..len]);
            rest = &rest[len..];
        }
        line
    }
}

/// `⟨Kind text⟩` at the start: the kind, the text, and what stands behind.
fn written_out(text: &str) -> Option<(TokenKind, &str, &str)> {
    let (inside, behind) = text.strip_prefix('⟨')?.split_once('⟩')?;
    let (name, lexeme) = inside.split_once(' ')?;
    let kind = KINDS.iter().find(|kind| format!("{kind:?}") == name)?;
    Some((*kind, lexeme, behind))
}

/// Each kind that a rule names, at each length that a rule names; a text that differs from the
/// usual one where a rule looks at text; AttrRef; zero-length tokens; the names that rules
/// name; and kinds that no rule names.
pub const SIGNIFICANT: [Tok; 33] = [
    (Word, "a"),
    (Word, ""),
    (AttrRef, "{x}"),
    (Whitespace, " "),
    (Comma, ","),
    (DoubleQuote, "\""),
    (SingleQuote, "'"),
    (EqualSigns, "="),
    (EqualSigns, "=="),
    (EqualSigns, "x"),
    (EqualSigns, ""),
    (Dots, "."),
    (Dots, "..."),
    (Dots, ""),
    (Hash, "#"),
    (Hash, "##"),
    (Percent, "%"),
    (Percent, "%%"),
    (CloseBracket, "]"),
    (OpenBracket, "["),
    (Backslash, "\\"),
    (Word, "id"),
    (Word, "role"),
    (Word, "opts"),
    (Word, "options"),
    (Word, "subs"),
    (Word, "cols"),
    (Whitespace, ""),
    (AttrRef, ""),
    (Newline, "\n"),
    (Digits, "1"),
    (NoBreakSpace, "\u{a0}"),
    (Word, "."),
];

/// Halves of the names that rules name.
pub const HALVES: [Tok; 12] = [
    (Word, "i"),
    (Word, "d"),
    (Word, "ro"),
    (Word, "le"),
    (Word, "opt"),
    (Word, "s"),
    (Word, "option"),
    (Word, "sub"),
    (Word, "col"),
    (Digits, "s"),
    (Word, "id"),
    (Word, "ID"),
];

const TEXTS: [&str; 24] = [
    "",
    "a",
    "=",
    "==",
    ".",
    "..",
    "...",
    "#",
    "##",
    "%",
    "id",
    "role",
    "opts",
    "options",
    "subs",
    "cols",
    " ",
    "\u{e9}",
    "\u{65e5}\u{672c}",
    "{x}",
    "]",
    ",",
    "\"",
    "'",
];

/// Bytes that stand between lexemes; no token has them, so they need not be UTF-8.
fn gap(line: &mut LineBuf, rng: &mut Rng) {
    for _ in 0..1 + rng.below(3) {
        line.text.push(rng.next() as u8);
    }
}

/// A line of `len` tokens: a few of the significant tokens, again and again; most end in a
/// CloseBracket; some have gaps.
pub fn random_line(line: &mut LineBuf, rng: &mut Rng, len: usize) {
    line.clear();
    let mut palette = [SIGNIFICANT[0]; 12];
    let colours = 2 + rng.below(10);
    for colour in &mut palette[..colours] {
        *colour = if rng.one_in(8) { *rng.pick(&HALVES) } else { SIGNIFICANT[rng.below(SIGNIFICANT.len())] };
    }
    let gaps = rng.one_in(3);
    let brackets = rng.one_in(3);
    for place in 0..len {
        if gaps && rng.one_in(4) {
            gap(line, rng);
        }
        let mut token = if rng.one_in(20) {
            SIGNIFICANT[rng.below(SIGNIFICANT.len())]
        } else {
            palette[rng.below(colours)]
        };
        if token.0 == CloseBracket && !brackets && place > 0 {
            token = SIGNIFICANT[0];
        }
        if place + 1 == len && !rng.one_in(10) {
            token = (CloseBracket, "]");
        }
        line.push(token.0, token.1.as_bytes());
    }
    if gaps && rng.one_in(2) {
        gap(line, rng);
    }
}

/// A line of words, commas and quotes of both kinds, so that many pairs cross; most end in a
/// CloseBracket.
pub fn commas_and_quotes(line: &mut LineBuf, rng: &mut Rng, len: usize) {
    const TOKENS: [(TokenKind, &str); 12] = [
        (Word, "a"),
        (Word, "b"),
        (EqualSigns, "="),
        (Comma, ","),
        (Comma, ","),
        (Comma, ","),
        (Comma, ","),
        (Comma, ","),
        (DoubleQuote, "\""),
        (DoubleQuote, "\""),
        (SingleQuote, "'"),
        (SingleQuote, "'"),
    ];
    line.clear();
    for place in 0..len {
        let closes = place + 1 == len && !rng.one_in(10);
        let (kind, text) = if closes { (CloseBracket, "]") } else { *rng.pick(&TOKENS) };
        line.push(kind, text.as_bytes());
    }
}

/// A line that may be an anchor's: most begin with a Word, have a Comma soon, and end in two
/// CloseBrackets; some have two, or another Comma, elsewhere too. Each token keeps its text.
pub fn anchor_line(line: &mut LineBuf, rng: &mut Rng, len: usize) {
    if rng.one_in(3) {
        any_kinds_line(line, rng, len);
    } else {
        random_line(line, rng, len);
    }
    let kinds = &mut line.kinds;
    if !rng.one_in(6) {
        kinds[0] = Word as u8;
    }
    let comma = 1 + rng.below(3);
    if comma < len && !rng.one_in(4) {
        kinds[comma] = Comma as u8;
        if comma + 1 < len && rng.one_in(3) {
            kinds[comma + 1] = *rng.pick(&[Whitespace as u8, Discard as u8]);
        }
    }
    if len > 1 && rng.one_in(3) {
        let at = rng.below(len - 1);
        kinds[at..at + 2].fill(CloseBracket as u8);
    }
    for kind in kinds.iter_mut().rev().take(2) {
        if !rng.one_in(8) {
            *kind = CloseBracket as u8;
        }
    }
}

/// Tokens that the Rust may put into an email address, and others beside them. A MaybeEmail is here an
/// address by itself, or one behind another token, or none.
pub const EMAILS: [Tok; 12] = [
    A,
    SPACE,
    DOT,
    DOTS,
    REF,
    (Digits, "1"),
    (Underscore, "_"),
    (Plus, "+"),
    (Word, ""),
    (MaybeEmail, "u@ex.com"),
    (MaybeEmail, "@ex.com"),
    (MaybeEmail, "u"),
];

/// The line of an anchor with `len` tokens of email addresses in its reference text.
pub fn email_line(line: &mut LineBuf, rng: &mut Rng, len: usize) {
    line.clear();
    line.push_all(&[A, COMMA]);
    for _ in 0..len {
        line.push_all(&[*rng.pick(&EMAILS)]);
    }
    line.push_all(&[CLOSE, CLOSE]);
}

/// A line over all kinds, each with any of a list of texts.
pub fn any_kinds_line(line: &mut LineBuf, rng: &mut Rng, len: usize) {
    line.clear();
    for place in 0..len {
        if rng.one_in(6) {
            gap(line, rng);
        }
        let kind = if place + 1 == len && !rng.one_in(8) {
            CloseBracket
        } else if rng.one_in(3) {
            SIGNIFICANT[rng.below(SIGNIFICANT.len())].0
        } else {
            KINDS[rng.below(51)]
        };
        line.push(kind, rng.pick(&TEXTS).as_bytes());
    }
}

/// Puts bytes that are no UTF-8 into some lexemes that no rule compares with a text, and gives
/// the text for the Rust: the same with an ASCII byte that stands in no name.
pub fn spoil_utf8(line: &mut LineBuf, rng: &mut Rng) -> Vec<u8> {
    let mut for_rust = line.text.clone();
    for place in 0..line.kinds.len() {
        let (offset, length) = (line.pairs[2 * place] as usize, line.pairs[2 * place + 1] as usize);
        for at in offset..offset + length {
            if rng.one_in(2) || !line.text[at].is_ascii() {
                line.text[at] = 128 + (rng.next() % 128) as u8;
                for_rust[at] = b'Z';
            }
        }
    }
    for_rust
}
