use std::borrow::Cow;
use std::fmt;

use crate::sys;
use crate::{Kind, Refusal};

/// A line of tokens that owns its kinds, its text and its pairs.
///
/// ```
/// use telfjost::{Kind, Line};
///
/// let mut line = Line::new();
/// line.push(Kind::OpenBracket, "[").push(Kind::Word, "quote").push(Kind::CloseBracket, "]");
/// assert_eq!(line.lent().is_block_attr_list(), Ok(true));
/// ```
#[derive(Debug, Clone, Default, PartialEq, Eq)]
pub struct Line {
    kinds: Vec<u8>,
    text: Vec<u8>,
    pairs: Vec<u32>,
}

/// Past u32 a line is refused for its length (3) before a pair is looked at.
fn narrow(n: usize) -> u32 {
    u32::try_from(n).unwrap_or(u32::MAX)
}

impl Line {
    /// A line of no tokens.
    pub fn new() -> Line {
        Line::default()
    }

    /// Puts a token behind the others. Its text may be any bytes, also none.
    pub fn push(&mut self, kind: Kind, text: impl AsRef<[u8]>) -> &mut Line {
        let text = text.as_ref();
        self.kinds.push(kind.number());
        self.pairs.push(narrow(self.text.len()));
        self.pairs.push(narrow(text.len()));
        self.text.extend_from_slice(text);
        self
    }

    /// Puts bytes that belong to no token behind the last one.
    pub fn gap(&mut self, bytes: impl AsRef<[u8]>) -> &mut Line {
        self.text.extend_from_slice(bytes.as_ref());
        self
    }

    /// Takes every token off and keeps the room.
    pub fn clear(&mut self) {
        self.kinds.clear();
        self.text.clear();
        self.pairs.clear();
    }

    /// The line as the reader is lent it.
    pub fn lent(&self) -> Lent<'_> {
        Lent { kinds: &self.kinds, text: &self.text, pairs: &self.pairs }
    }
}

impl<T: AsRef<[u8]>> FromIterator<(Kind, T)> for Line {
    /// ```
    /// use telfjost::{Kind, Line};
    /// let line: Line = [(Kind::Word, "a"), (Kind::Comma, ","), (Kind::CloseBracket, "]")].into_iter().collect();
    /// assert_eq!(line.lent().tokens(), 3);
    /// ```
    fn from_iter<I: IntoIterator<Item = (Kind, T)>>(tokens: I) -> Line {
        let mut line = Line::new();
        for (kind, text) in tokens {
            line.push(kind, text);
        }
        line
    }
}

impl<T: AsRef<[u8]>> Extend<(Kind, T)> for Line {
    fn extend<I: IntoIterator<Item = (Kind, T)>>(&mut self, tokens: I) {
        for (kind, text) in tokens {
            self.push(kind, text);
        }
    }
}

/// A line that is lent: its kinds, its text, and two numbers for each token, the byte at which
/// its text starts and its length. Any three slices will do; what does not fit is refused.
#[derive(Debug, Clone, Copy, PartialEq, Eq)]
pub struct Lent<'l> {
    /// One number for each token, 0 to 50 ([`Kind::number`]).
    pub kinds: &'l [u8],
    /// The bytes of the line.
    pub text: &'l [u8],
    /// Offset and length of each token, sorted, not overlapping, gaps allowed.
    pub pairs: &'l [u32],
}

impl<'l> From<&'l Line> for Lent<'l> {
    fn from(line: &'l Line) -> Lent<'l> {
        line.lent()
    }
}

impl<'l> Lent<'l> {
    /// How many tokens there are.
    pub fn tokens(&self) -> usize {
        self.kinds.len()
    }

    /// The kind of the token at a place; None where there is no such token or no such kind.
    pub fn kind(&self, place: usize) -> Option<Kind> {
        Kind::of_number(*self.kinds.get(place)?)
    }

    /// The bytes of the token at a place; None where there is no such token or its pair lies
    /// outside the text.
    pub fn lexeme(&self, place: usize) -> Option<&'l [u8]> {
        let offset = *self.pairs.get(place.checked_mul(2)?)? as usize;
        let length = *self.pairs.get(2 * place + 1)? as usize;
        self.text.get(offset..offset.checked_add(length)?)
    }

    /// What a run of tokens says, as a row's is read. AttrRef tokens are skipped, gaps are left out.
    pub fn text_of(&self, run: Run) -> Text<'l> {
        Text { line: *self, run, attr_refs: false }
    }

    /// What a run of tokens says, as an [`Anchor`](crate::Anchor)'s is read. AttrRef tokens are kept,
    /// gaps are left out.
    pub fn text_with_attr_refs(&self, run: Run) -> Text<'l> {
        Text { line: *self, run, attr_refs: true }
    }

    /// Is the line a block attribute list? Here, and here alone, the line begins with its
    /// opening bracket.
    ///
    /// Yes exactly when the first token is OpenBracket, the last is CloseBracket, the one
    /// before the last is not Backslash and the second is not OpenBracket. Refusals 1 to 6.
    ///
    /// ```
    /// use telfjost::{Kind, Line, Refusal};
    ///
    /// let line: Line = [(Kind::OpenBracket, "["), (Kind::CloseBracket, "]")].into_iter().collect();
    /// assert_eq!(line.lent().is_block_attr_list(), Ok(true));
    /// assert_eq!(Line::new().lent().is_block_attr_list(), Err(Refusal::NoTokens));
    /// ```
    pub fn is_block_attr_list(&self) -> Result<bool, Refusal> {
        let answer = sys::is_block_attr_list(*self);
        Refusal::check(answer.refusal)?;
        Ok(answer.yes == 1)
    }
}

/// A run of tokens: the place of the first and how many there are. An empty run is 0, 0.
#[derive(Debug, Clone, Copy, PartialEq, Eq, Hash, Default)]
pub struct Run {
    /// The first token, counted from 0.
    pub place: usize,
    /// First kept token to last, AttrRef tokens between them counted; of an anchor's run, where they are
    /// kept, first token to last.
    pub count: usize,
}

impl Run {
    /// Has it no tokens?
    pub fn is_empty(&self) -> bool {
        self.count == 0
    }

    /// The places of its tokens.
    pub fn places(&self) -> std::ops::Range<usize> {
        self.place..self.place.saturating_add(self.count)
    }
}

/// What a run says: the bytes of its tokens, one after the other. In the runs of a row AttrRef tokens
/// are skipped, in those of an [`Anchor`](crate::Anchor) they are kept.
///
/// It compares with `str` and `[u8]` without being copied together, and prints as text.
#[derive(Clone, Copy)]
pub struct Text<'l> {
    line: Lent<'l>,
    run: Run,
    attr_refs: bool,
}

impl<'l> Text<'l> {
    /// The run that it is the text of.
    pub fn run(&self) -> Run {
        self.run
    }

    /// The bytes of each token of the run; in that of a row, of each that is not AttrRef.
    ///
    /// ```
    /// use telfjost::{Kind, Line, Run};
    ///
    /// let line: Line = [(Kind::Word, "a"), (Kind::AttrRef, "{x}"), (Kind::Word, "b")].into_iter().collect();
    /// let text = line.lent().text_of(Run { place: 0, count: 3 });
    /// assert_eq!(text.pieces().collect::<Vec<_>>(), [b"a", b"b"]);
    /// assert_eq!(text, "ab");
    /// assert_eq!(line.lent().text_with_attr_refs(text.run()), "a{x}b");
    /// ```
    pub fn pieces(&self) -> impl Iterator<Item = &'l [u8]> + 'l {
        let Text { line, run, attr_refs } = *self;
        let end = run.places().end.min(line.tokens());
        (run.place..end)
            .filter(move |place| attr_refs || line.kinds[*place] != Kind::AttrRef.number())
            .filter_map(move |place| line.lexeme(place))
    }

    /// The bytes as one slice: borrowed where there is one piece, else copied together.
    pub fn to_bytes(&self) -> Cow<'l, [u8]> {
        let mut pieces = self.pieces().filter(|piece| !piece.is_empty());
        let Some(first) = pieces.next() else { return Cow::Borrowed(&[]) };
        match pieces.next() {
            None => Cow::Borrowed(first),
            Some(second) => {
                let mut bytes = [first, second].concat();
                pieces.for_each(|piece| bytes.extend_from_slice(piece));
                Cow::Owned(bytes)
            }
        }
    }

    /// Has it no bytes?
    pub fn is_empty(&self) -> bool {
        self.pieces().all(<[u8]>::is_empty)
    }
}

impl PartialEq<[u8]> for Text<'_> {
    fn eq(&self, other: &[u8]) -> bool {
        let mut rest = other;
        for piece in self.pieces() {
            let Some(behind) = rest.strip_prefix(piece) else { return false };
            rest = behind;
        }
        rest.is_empty()
    }
}

impl PartialEq<str> for Text<'_> {
    fn eq(&self, other: &str) -> bool {
        *self == *other.as_bytes()
    }
}

impl PartialEq<&str> for Text<'_> {
    fn eq(&self, other: &&str) -> bool {
        *self == *other.as_bytes()
    }
}

impl fmt::Display for Text<'_> {
    /// Bytes that are no UTF-8 print as U+FFFD.
    fn fmt(&self, f: &mut fmt::Formatter<'_>) -> fmt::Result {
        f.pad(&String::from_utf8_lossy(&self.to_bytes()))
    }
}

impl fmt::Debug for Text<'_> {
    fn fmt(&self, f: &mut fmt::Formatter<'_>) -> fmt::Result {
        fmt::Debug::fmt(&String::from_utf8_lossy(&self.to_bytes()), f)
    }
}
