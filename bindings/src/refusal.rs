use std::fmt;

/// Why a call was turned away: the table of docs/RULES.md, by its numbers.
///
/// The checks run downward; the first that applies is the one returned.
#[derive(Debug, Clone, Copy, PartialEq, Eq, Hash)]
#[non_exhaustive]
pub enum Refusal {
    /// 1: the line has no tokens.
    NoTokens,
    /// 2: the line has over 4,096 tokens; for the small viewer, over 256 ([`Limit`](crate::Limit)).
    TooManyTokens,
    /// 3: the line's text has over 65,535 bytes.
    TextTooLong,
    /// 4: there are not two numbers in the pairs for each kind.
    PairsNotTwo,
    /// 5: some kind is over 50.
    KindTooLarge,
    /// 6: a pair starts before the previous one ends, or ends past the text.
    PairsNotInOrder,
    /// 7: the row buffer holds under 6 × tokens numbers. Nothing in this crate leads to it,
    /// since it sizes the buffer itself.
    RowsTooShort,
    /// 8: the line has no closing bracket as its entry asks for one.
    NoClosingBracket,
    /// 9: the subs text has over 65,535 bytes.
    SubsTextTooLong,
    /// 10: the set is not held.
    SetNotHeld,
    /// 11: the set is held but not sound (sheet mode).
    SetNotSound,
    /// 12: the line of an anchor, one that is not "no anchor", runs out, does not close as it should, or
    /// its id has no bytes.
    AnchorMalformed,
    /// A number of a later library, which this crate has no words for.
    Other(usize),
}

/// Where it is checked, and exactly when it applies: the words of docs/RULES.md.
const WORDS: [(Refusal, &str, &str); 12] = [
    (Refusal::NoTokens, "line", "no tokens"),
    (Refusal::TooManyTokens, "line", "over 4,096 tokens; for the small viewer over 256"),
    (Refusal::TextTooLong, "text of a line", "over 65,535 bytes"),
    (Refusal::PairsNotTwo, "pairs", "not two numbers for each kind"),
    (Refusal::KindTooLarge, "kinds", "some kind over 50"),
    (Refusal::PairsNotInOrder, "pairs", "one starts before the previous ends, or ends past the text"),
    (Refusal::RowsTooShort, "row buffer", "under 6 × tokens"),
    (Refusal::NoClosingBracket, "closing bracket", "none"),
    (Refusal::SubsTextTooLong, "subs text", "over 65,535 bytes"),
    (Refusal::SetNotHeld, "set", "not held"),
    (Refusal::SetNotSound, "set, sheet mode", "held but not sound"),
    (Refusal::AnchorMalformed, "anchor", "does not close as it should, or its id has no bytes"),
];

impl Refusal {
    /// Its number in the table of docs/RULES.md.
    ///
    /// ```
    /// assert_eq!(telfjost::Refusal::NoClosingBracket.number(), 8);
    /// ```
    pub fn number(self) -> usize {
        match self {
            Refusal::Other(number) => number,
            known => WORDS.iter().position(|(refusal, ..)| *refusal == known).map_or(0, |at| at + 1),
        }
    }

    /// The refusal of a number; 0 is none.
    ///
    /// ```
    /// use telfjost::Refusal;
    /// assert_eq!(Refusal::of_number(0), None);
    /// assert_eq!(Refusal::of_number(2), Some(Refusal::TooManyTokens));
    /// ```
    pub fn of_number(number: usize) -> Option<Refusal> {
        let row = WORDS.get(number.checked_sub(1)?);
        Some(row.map_or(Refusal::Other(number), |(refusal, ..)| *refusal))
    }

    /// Nothing for 0, else the refusal.
    pub(crate) fn check(number: usize) -> Result<(), Refusal> {
        Refusal::of_number(number).map_or(Ok(()), Err)
    }
}

impl fmt::Display for Refusal {
    fn fmt(&self, f: &mut fmt::Formatter<'_>) -> fmt::Result {
        match WORDS.iter().find(|(refusal, ..)| refusal == self) {
            Some((_, at, when)) => write!(f, "refusal {}: {at}: {when}", self.number()),
            None => write!(f, "refusal {}", self.number()),
        }
    }
}

impl std::error::Error for Refusal {}
