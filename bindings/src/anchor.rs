use crate::sys;
use crate::{Lent, Refusal, Run, Text};

/// An anchor, `[[id,text]]`: its id and, where it has one, its reference text.
///
/// AttrRef tokens are kept in both, where the texts of a row go without them.
///
/// ```
/// use telfjost::{Kind, Line};
///
/// // glucose{edition}]]
/// let line: Line = [
///     (Kind::Word, "glucose"), (Kind::AttrRef, "{edition}"), (Kind::CloseBracket, "]"),
///     (Kind::CloseBracket, "]"),
/// ]
/// .into_iter()
/// .collect();
/// let anchor = line.lent().block_anchor()?.unwrap();
/// assert_eq!(anchor.id(), "glucose{edition}");
/// assert!(anchor.reference_text().is_none());
/// # Ok::<(), telfjost::Refusal>(())
/// ```
#[derive(Debug, Clone, Copy, PartialEq, Eq)]
pub struct Anchor<'l> {
    line: Lent<'l>,
    id: Run,
    reference_text: Option<Run>,
    first_is_discard: bool,
    consumed: usize,
}

impl<'l> Anchor<'l> {
    /// The id.
    pub fn id(&self) -> Text<'l> {
        self.line.text_with_attr_refs(self.id)
    }

    /// The reference text; None where it has no tokens. Its first token is in it also where that counts
    /// as Discard.
    pub fn reference_text(&self) -> Option<Text<'l>> {
        self.reference_text.map(|run| self.line.text_with_attr_refs(run))
    }

    /// Does the first token of the reference text count as Discard? It does where it is Whitespace, or is
    /// lent as Discard.
    pub fn first_is_discard(&self) -> bool {
        self.first_is_discard
    }

    /// The reference text as it is to be shown: without its first token where that counts as Discard. Of
    /// a reference text that is one blank it gives an empty text, and not None.
    pub fn shown_text(&self) -> Option<Text<'l>> {
        let run = self.reference_text?;
        let shown = if self.first_is_discard { behind_first(run) } else { run };
        Some(self.line.text_with_attr_refs(shown))
    }

    /// Tokens consumed, the closing brackets among them.
    pub fn consumed(&self) -> usize {
        self.consumed
    }

    /// The line that was read.
    pub fn line(&self) -> Lent<'l> {
        self.line
    }
}

/// A run without its first token.
fn behind_first(run: Run) -> Run {
    match run.count {
        0 | 1 => Run::default(),
        count => Run { place: run.place + 1, count: count - 1 },
    }
}

impl sys::AnchorAnswer {
    /// The anchor, None for "no anchor", or the refusal.
    fn checked(self, line: Lent<'_>) -> Result<Option<Anchor<'_>>, Refusal> {
        Refusal::check(self.refusal)?;
        let reference_text = Run { place: self.text_place, count: self.text_count };
        let anchor = Anchor {
            line,
            id: Run { place: self.id_place, count: self.id_count },
            reference_text: Some(reference_text).filter(|run| !run.is_empty()),
            first_is_discard: self.discard == 1,
            consumed: self.consumed,
        };
        Ok((self.anchor == 1).then_some(anchor))
    }
}

impl<'l> Lent<'l> {
    /// The line as an anchor, all of it. It begins after the two opening brackets.
    ///
    /// None is "no anchor": the first token is SingleQuote, DoubleQuote, Whitespace, CloseBracket, Digits
    /// or Comma. Else the id runs to the first Comma or CloseBracket. At a CloseBracket there is no
    /// reference text, and that token is consumed with one more of any kind, if there is one. Behind a
    /// Comma the line must end in two CloseBrackets, the reference text is what stands before them, and
    /// the whole line is consumed. Refusals 1 to 6, and 12.
    ///
    /// ```
    /// use telfjost::{Kind, Line, Refusal};
    ///
    /// let mut line = Line::new();
    /// line.push(Kind::Word, "lung").push(Kind::Comma, ",").push(Kind::Word, "Lung");
    /// assert_eq!(line.lent().block_anchor(), Err(Refusal::AnchorMalformed));
    /// line.push(Kind::CloseBracket, "]").push(Kind::CloseBracket, "]");
    /// let anchor = line.lent().block_anchor()?.unwrap();
    /// assert_eq!((anchor.id().to_string().as_str(), anchor.consumed()), ("lung", 5));
    /// assert_eq!(anchor.reference_text().unwrap(), "Lung");
    ///
    /// let line: Line = [(Kind::Digits, "8"), (Kind::CloseBracket, "]"), (Kind::CloseBracket, "]")]
    ///     .into_iter()
    ///     .collect();
    /// assert_eq!(line.lent().block_anchor(), Ok(None));
    /// # Ok::<(), Refusal>(())
    /// ```
    pub fn block_anchor(&self) -> Result<Option<Anchor<'l>>, Refusal> {
        sys::block_anchor(*self).checked(*self)
    }

    /// The line as an anchor that may end before the line does. It is read as by [`Lent::block_anchor`],
    /// but for what follows a Comma: there the reference text runs to the first CloseBracket, which must
    /// be followed by another. A Backslash escapes no bracket: `a,b\]]` closes, with the Backslash in the
    /// text, and `a,b]\]]` is refused with 12.
    ///
    /// ```
    /// use telfjost::{Kind, Line};
    ///
    /// // lung, Lung]] is
    /// let line: Line = [
    ///     (Kind::Word, "lung"), (Kind::Comma, ","), (Kind::Whitespace, " "), (Kind::Word, "Lung"),
    ///     (Kind::CloseBracket, "]"), (Kind::CloseBracket, "]"), (Kind::Whitespace, " "), (Kind::Word, "is"),
    /// ]
    /// .into_iter()
    /// .collect();
    /// let anchor = line.lent().inline_anchor()?.unwrap();
    /// assert_eq!(anchor.reference_text().unwrap(), " Lung");
    /// assert!(anchor.first_is_discard());
    /// assert_eq!(anchor.shown_text().unwrap(), "Lung");
    /// assert_eq!(anchor.consumed(), 6);
    /// # Ok::<(), telfjost::Refusal>(())
    /// ```
    pub fn inline_anchor(&self) -> Result<Option<Anchor<'l>>, Refusal> {
        sys::inline_anchor(*self).checked(*self)
    }
}
