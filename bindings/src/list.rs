use std::borrow::Cow;
use std::fmt;

use crate::sys;
use crate::{Lent, Refusal, Run, Text};

/// How many numbers a row has.
const ROW: usize = 6;

/// One row: what the reader says of a line.
#[derive(Debug, Clone, Copy, PartialEq, Eq, Hash)]
pub enum Row {
    /// Tag 1: a positional attribute that is empty.
    EmptyPositional,
    /// Tag 2: a positional attribute, or a link's text.
    Positional {
        /// Its text.
        run: Run,
        /// The quotes that were taken off it. Where shorthand was cut off behind it (`a.b`) it has none.
        quotes: Quotes,
    },
    /// Tags 3 and 8: a named attribute. Repeats are kept, in reading order.
    Named {
        /// The name.
        name: Run,
        /// The value.
        value: Run,
        /// The name is `subs` or `cols` and the value is to be read under no substitutions
        /// (tag 8), else under `attr_value` (tag 3).
        plain: bool,
        /// The quotes that were taken off the value.
        quotes: Quotes,
    },
    /// Tag 4: the id.
    Id {
        /// Its text.
        run: Run,
        /// The quotes that were taken off it. In shorthand (`#a`) it has none.
        quotes: Quotes,
    },
    /// Tag 5: a role. Quotes around the list of roles are not told.
    Role(Run),
    /// Tag 6: an option. Quotes around the list of options are not told.
    Option(Run),
    /// Tag 7: a diagnostic; reading went on.
    Diagnostic {
        /// The token that it is about; for [`Diagnostic::EmptyId`] the list's own place, 0.
        place: usize,
        /// What it says.
        kind: Diagnostic,
    },
}

/// Which quotes the reader took off a run: the last number of a row.
///
/// They are read from the whole line, and the tokens beside a run do not tell them: in `k=""` they
/// are double and the value is an empty run, which has no place.
///
/// An editor puts them around the text again, to write it in the author's quotes:
///
/// ```
/// use telfjost::{Kind, Line, Quotes, Row};
///
/// // title='Glucose, fasting']
/// let line: Line = [
///     (Kind::Word, "title"), (Kind::EqualSigns, "="), (Kind::SingleQuote, "'"), (Kind::Word, "Glucose"),
///     (Kind::Comma, ","), (Kind::Whitespace, " "), (Kind::Word, "fasting"), (Kind::SingleQuote, "'"),
///     (Kind::CloseBracket, "]"),
/// ]
/// .into_iter()
/// .collect();
/// let list = line.lent().block_attr_list()?;
/// let Some(Row::Named { value, quotes, .. }) = list.rows().next() else { panic!("one named row") };
/// assert_eq!((list.text_of(value).to_string().as_str(), quotes), ("Glucose, fasting", Quotes::Single));
/// assert_eq!(format!("{quotes}{}{quotes}", list.text_of(value)), "'Glucose, fasting'");
/// # Ok::<(), telfjost::Refusal>(())
/// ```
#[derive(Debug, Clone, Copy, PartialEq, Eq, Hash, Default)]
pub enum Quotes {
    /// 0: none were taken off.
    #[default]
    None,
    /// 1: a pair of double quotes.
    Double,
    /// 2: a pair of single quotes.
    Single,
}

impl Quotes {
    const ALL: [Quotes; 3] = [Quotes::None, Quotes::Double, Quotes::Single];

    /// Its number in a row, 0 to 2.
    pub fn number(self) -> usize {
        self as usize
    }

    /// One quote of the pair: `"` or `'`, or nothing.
    pub fn mark(self) -> &'static str {
        ["", "\"", "'"][self as usize]
    }
}

impl fmt::Display for Quotes {
    /// Prints one quote of the pair.
    fn fmt(&self, f: &mut fmt::Formatter<'_>) -> fmt::Result {
        f.pad(self.mark())
    }
}

/// What a diagnostic says: the four of docs/RULES.md.
#[derive(Debug, Clone, Copy, PartialEq, Eq, Hash)]
pub enum Diagnostic {
    /// 1
    InvalidId,
    /// 2
    InvalidList,
    /// 3
    EmptyId,
    /// 4
    SecondId,
}

impl Diagnostic {
    const WORDS: [(Diagnostic, &'static str); 4] = [
        (Diagnostic::InvalidId, "Invalid id attribute"),
        (Diagnostic::InvalidList, "Invalid attr list"),
        (Diagnostic::EmptyId, "Invalid empty id attribute"),
        (Diagnostic::SecondId, "More than one id attribute"),
    ];

    /// Its number, 1 to 4.
    pub fn number(self) -> usize {
        self as usize + 1
    }
}

impl fmt::Display for Diagnostic {
    fn fmt(&self, f: &mut fmt::Formatter<'_>) -> fmt::Result {
        f.pad(Diagnostic::WORDS[*self as usize].1)
    }
}

impl Row {
    fn of(numbers: &[u32]) -> Row {
        let run = |at: usize| Run { place: numbers[at] as usize, count: numbers[at + 1] as usize };
        match (numbers[0], Quotes::ALL.get(numbers[ROW - 1] as usize).copied()) {
            (1, Some(Quotes::None)) => Row::EmptyPositional,
            (2, Some(quotes)) => Row::Positional { run: run(1), quotes },
            (tag @ (3 | 8), Some(quotes)) => {
                Row::Named { name: run(1), value: run(3), plain: tag == 8, quotes }
            }
            (4, Some(quotes)) => Row::Id { run: run(1), quotes },
            (5, Some(Quotes::None)) => Row::Role(run(1)),
            (6, Some(Quotes::None)) => Row::Option(run(1)),
            (7, Some(Quotes::None)) if (1..=4).contains(&numbers[2]) => Row::Diagnostic {
                place: numbers[1] as usize,
                kind: Diagnostic::WORDS[numbers[2] as usize - 1].0,
            },
            _ => panic!("the library linked writes rows that this crate does not know: {numbers:?}"),
        }
    }
}

/// What a line was read as: its rows in reading order, how many tokens it took, and how many commas
/// were taken back.
#[derive(Debug, Clone, PartialEq, Eq)]
pub struct List<'l> {
    line: Lent<'l>,
    numbers: Cow<'l, [u32]>,
    consumed: usize,
    rejoined: usize,
}

impl<'l> List<'l> {
    /// Tokens consumed, the closing bracket among them.
    pub fn consumed(&self) -> usize {
        self.consumed
    }

    /// Commas taken back: counted ones that a second quote of a pair joined to what stands before them,
    /// so that they do not divide. Of a line that is read as a list they and the dividing commas are all
    /// the commas counted. It is 0 where the first token closes the list, and for a link that is read as
    /// text.
    ///
    /// Where a quote was forgotten and the one before it pairs with a later one, no diagnostic says so:
    /// this number does. An attribute has then become part of its neighbour. docs/TAKEN-BACK.md tells more.
    ///
    /// ```
    /// use telfjost::{Kind, Line};
    ///
    /// // name=O'Brien,edition=3,second=O'Neill]
    /// let line: Line = [
    ///     (Kind::Word, "name"), (Kind::EqualSigns, "="), (Kind::Word, "O"), (Kind::SingleQuote, "'"),
    ///     (Kind::Word, "Brien"), (Kind::Comma, ","), (Kind::Word, "edition"), (Kind::EqualSigns, "="),
    ///     (Kind::Digits, "3"), (Kind::Comma, ","), (Kind::Word, "second"), (Kind::EqualSigns, "="),
    ///     (Kind::Word, "O"), (Kind::SingleQuote, "'"), (Kind::Word, "Neill"), (Kind::CloseBracket, "]"),
    /// ]
    /// .into_iter()
    /// .collect();
    /// let list = line.lent().block_attr_list()?;
    /// assert_eq!(list.rejoined(), 2);
    /// assert!(list.values("edition").next().is_none());
    /// # Ok::<(), telfjost::Refusal>(())
    /// ```
    pub fn rejoined(&self) -> usize {
        self.rejoined
    }

    /// The line that was read.
    pub fn line(&self) -> Lent<'l> {
        self.line
    }

    /// The rows in reading order.
    pub fn rows(&self) -> impl ExactSizeIterator<Item = Row> + DoubleEndedIterator + '_ {
        self.numbers.chunks_exact(ROW).map(Row::of)
    }

    /// What a run of a row says, AttrRef tokens skipped.
    pub fn text_of(&self, run: Run) -> Text<'l> {
        self.line.text_of(run)
    }

    /// The positional attributes in order; None for an empty one. Named attributes and
    /// shorthand are not counted among them.
    pub fn positional(&self) -> impl Iterator<Item = Option<Text<'l>>> + '_ {
        self.rows().filter_map(|row| match row {
            Row::EmptyPositional => Some(None),
            Row::Positional { run, .. } => Some(Some(self.text_of(run))),
            _ => None,
        })
    }

    /// The named attributes in order: name, value. Ids, roles and options are not among them.
    pub fn named(&self) -> impl Iterator<Item = (Text<'l>, Text<'l>)> + '_ {
        self.rows().filter_map(|row| match row {
            Row::Named { name, value, .. } => Some((self.text_of(name), self.text_of(value))),
            _ => None,
        })
    }

    /// The values given to a name, in order. A name may be given more than once: whether the
    /// first or the last is to stand is for the caller to say.
    pub fn values<'s>(&'s self, name: &'s str) -> impl Iterator<Item = Text<'l>> + 's {
        self.named().filter(move |(given, _)| given == name).map(|(_, value)| value)
    }

    /// The id.
    pub fn id(&self) -> Option<Text<'l>> {
        self.rows().find_map(|row| match row {
            Row::Id { run, .. } => Some(self.text_of(run)),
            _ => None,
        })
    }

    /// The roles in order.
    pub fn roles(&self) -> impl Iterator<Item = Text<'l>> + '_ {
        self.rows().filter_map(|row| match row {
            Row::Role(run) => Some(self.text_of(run)),
            _ => None,
        })
    }

    /// The options in order.
    pub fn options(&self) -> impl Iterator<Item = Text<'l>> + '_ {
        self.rows().filter_map(|row| match row {
            Row::Option(run) => Some(self.text_of(run)),
            _ => None,
        })
    }

    /// The diagnostics in order, each with its place.
    pub fn diagnostics(&self) -> impl Iterator<Item = (usize, Diagnostic)> + '_ {
        self.rows().filter_map(|row| match row {
            Row::Diagnostic { place, kind } => Some((place, kind)),
            _ => None,
        })
    }
}

/// The four readings.
#[derive(Debug, Clone, Copy, PartialEq, Eq, Hash)]
pub enum Entry {
    /// A block attribute line: shorthand is read; the last token closes.
    Block,
    /// The list of a block macro: no shorthand; the last token closes.
    BlockMacro,
    /// The list of an inline macro: no shorthand; closed as docs/RULES.md says for inline.
    InlineMacro,
    /// What stands in a link macro's brackets: a list, or text, which is one positional row.
    LinkMacro,
}

/// Up to how many tokens a line is read. A line within both limits has the same answer under each, entry
/// by entry.
#[derive(Debug, Clone, Copy, PartialEq, Eq, Hash, Default)]
pub enum Limit {
    /// The main reader's: 4,096.
    #[default]
    Main,
    /// The small viewer's: 256. A call takes little of the stack (docs/VIEWER.md).
    Viewer,
}

impl Limit {
    /// How many tokens a line may have; one of more is refused with [`Refusal::TooManyTokens`].
    ///
    /// ```
    /// use telfjost::Limit;
    /// assert_eq!((Limit::Main.tokens(), Limit::Viewer.tokens()), (4096, 256));
    /// ```
    pub const fn tokens(self) -> usize {
        match self {
            Limit::Main => 4096,
            Limit::Viewer => 256,
        }
    }

    /// How many numbers the rows of a line may need. One of too many tokens is refused whatever the
    /// room.
    fn room(self, line: Lent<'_>) -> usize {
        ROW * line.tokens().min(self.tokens())
    }
}

/// A row buffer that is used again from line to line. It grows to what a line needs, up to the
/// reader's limit.
///
/// ```
/// use telfjost::{Entry, Kind, Line, Reader};
///
/// let line: Line = [(Kind::Word, "a"), (Kind::Comma, ","), (Kind::Word, "b"), (Kind::CloseBracket, "]")]
///     .into_iter()
///     .collect();
/// let mut reader = Reader::new();
/// for _ in 0..3 {
///     let list = reader.read(Entry::Block, &line)?;
///     assert_eq!(list.rows().len(), 2);
/// }
/// # Ok::<(), telfjost::Refusal>(())
/// ```
#[derive(Debug, Clone, Default)]
pub struct Reader {
    limit: Limit,
    rows: Vec<u32>,
}

impl Reader {
    /// The main reader, with no room yet.
    pub fn new() -> Reader {
        Reader::default()
    }

    /// A reader of lines up to a limit, with no room yet.
    ///
    /// ```
    /// use telfjost::{Entry, Kind, Limit, Line, Reader, Refusal};
    ///
    /// let line: Line = [(Kind::Comma, ","); 256].into_iter().chain([(Kind::CloseBracket, "]")]).collect();
    /// let mut viewer = Reader::with_limit(Limit::Viewer);
    /// assert_eq!(viewer.read(Entry::Block, &line), Err(Refusal::TooManyTokens));
    /// assert_eq!(Reader::new().read(Entry::Block, &line)?.rows().len(), 257);
    /// # Ok::<(), Refusal>(())
    /// ```
    pub fn with_limit(limit: Limit) -> Reader {
        Reader { limit, rows: Vec::new() }
    }

    /// Reads a line; the answer borrows the rows from this reader.
    pub fn read<'l>(&'l mut self, entry: Entry, line: impl Into<Lent<'l>>) -> Result<List<'l>, Refusal> {
        let line = line.into();
        let room = self.limit.room(line);
        if self.rows.len() < room {
            self.rows.resize(room, 0);
        }
        let answer = sys::read(self.limit, entry, line, &mut self.rows);
        Refusal::check(answer.refusal)?;
        let numbers = &self.rows[..ROW * answer.rows];
        Ok(List {
            line,
            numbers: Cow::Borrowed(numbers),
            consumed: answer.consumed,
            rejoined: answer.rejoined,
        })
    }
}

impl<'l> Lent<'l> {
    /// Reads the line by one of the four entries. The text begins after the opening bracket.
    /// A [`Reader`] does the same with a buffer that is used again.
    pub fn read(&self, entry: Entry) -> Result<List<'l>, Refusal> {
        self.read_within(Limit::Main, entry)
    }

    /// Reads the line by one of the four entries, if it has no more tokens than the limit.
    pub fn read_within(&self, limit: Limit, entry: Entry) -> Result<List<'l>, Refusal> {
        let mut rows = vec![0; limit.room(*self)];
        let answer = sys::read(limit, entry, *self, &mut rows);
        Refusal::check(answer.refusal)?;
        rows.truncate(ROW * answer.rows);
        Ok(List {
            line: *self,
            numbers: Cow::Owned(rows),
            consumed: answer.consumed,
            rejoined: answer.rejoined,
        })
    }

    /// The line as a block attribute list.
    ///
    /// ```
    /// use telfjost::{Kind, Line};
    ///
    /// // .wide#glucose%]
    /// let line: Line = [
    ///     (Kind::Dots, "."), (Kind::Word, "wide"), (Kind::Hash, "#"), (Kind::Word, "glucose"),
    ///     (Kind::Percent, "%"), (Kind::CloseBracket, "]"),
    /// ]
    /// .into_iter()
    /// .collect();
    /// let list = line.lent().block_attr_list()?;
    /// assert_eq!(list.id().unwrap(), "glucose");
    /// assert_eq!(list.roles().next().unwrap(), "wide");
    /// let (place, kind) = list.diagnostics().next().unwrap();
    /// assert_eq!((place, kind.to_string().as_str()), (4, "Invalid id attribute"));
    /// assert_eq!(list.consumed(), 6);
    /// # Ok::<(), telfjost::Refusal>(())
    /// ```
    pub fn block_attr_list(&self) -> Result<List<'l>, Refusal> {
        self.read(Entry::Block)
    }

    /// The line as the list of a block macro, which knows no shorthand.
    pub fn block_macro_attr_list(&self) -> Result<List<'l>, Refusal> {
        self.read(Entry::BlockMacro)
    }

    /// The line as the list of an inline macro: it may end before the line does.
    ///
    /// ```
    /// use telfjost::{Kind, Line};
    ///
    /// // a\]b]c
    /// let line: Line = [
    ///     (Kind::Word, "a"), (Kind::Backslash, "\\"), (Kind::CloseBracket, "]"), (Kind::Word, "b"),
    ///     (Kind::CloseBracket, "]"), (Kind::Word, "c"),
    /// ]
    /// .into_iter()
    /// .collect();
    /// let list = line.lent().inline_macro_attr_list()?;
    /// assert_eq!(list.positional().next().unwrap().unwrap(), "a\\]b");
    /// assert_eq!(list.consumed(), 5);
    /// # Ok::<(), telfjost::Refusal>(())
    /// ```
    pub fn inline_macro_attr_list(&self) -> Result<List<'l>, Refusal> {
        self.read(Entry::InlineMacro)
    }

    /// The line as what stands in a link macro's brackets: a list, or text.
    ///
    /// ```
    /// use telfjost::{Kind, Line, Refusal};
    ///
    /// let mut line = Line::new();
    /// line.push(Kind::Word, "see").push(Kind::Whitespace, " ").push(Kind::Word, "there");
    /// assert_eq!(line.lent().link_macro_attr_list(), Err(Refusal::NoClosingBracket));
    /// line.push(Kind::CloseBracket, "]");
    /// let list = line.lent().link_macro_attr_list()?;
    /// assert_eq!(list.positional().next().unwrap().unwrap(), "see there");
    /// # Ok::<(), Refusal>(())
    /// ```
    pub fn link_macro_attr_list(&self) -> Result<List<'l>, Refusal> {
        self.read(Entry::LinkMacro)
    }
}
