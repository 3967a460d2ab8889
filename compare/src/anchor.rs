//! The line of an anchor read from the words of document 02, Slip 1, with no eye on either program.

use crate::library::Anchor;
use crate::numbers::{AnchorEntry, KINDS, Lent};
use crate::token::TokenKind::{self, *};

/// "A first token of SingleQuote, DoubleQuote, Whitespace, CloseBracket, Digits or Comma answers
/// "no anchor"."
const NO_ANCHOR: [TokenKind; 6] = [SingleQuote, DoubleQuote, Whitespace, CloseBracket, Digits, Comma];

/// Reads a line that passed checks 1 to 6. "12 follows for any other line that runs out, does not
/// close as said, or has an id of no bytes."
pub fn read(entry: AnchorEntry, line: Lent<'_>) -> Anchor {
    if NO_ANCHOR.contains(&kind(line, 0)) {
        return Anchor::default();
    }
    closed(entry, line).unwrap_or(Anchor::refused(12))
}

fn kind(line: Lent<'_>, place: usize) -> TokenKind {
    KINDS[line.kinds[place] as usize]
}

/// The anchor, if it closes as said and has an id.
fn closed(entry: AnchorEntry, line: Lent<'_>) -> Option<Anchor> {
    let tokens = line.kinds.len();
    let end = (0..tokens).find(|place| matches!(kind(line, *place), Comma | CloseBracket))?;
    if (0..end).all(|place| line.pairs[2 * place + 1] == 0) {
        return None;
    }
    let alone = Anchor { anchor: 1, id_count: end, ..Anchor::default() };
    if kind(line, end) == CloseBracket {
        // "Up to two tokens are dropped, itself first, then one of any kind."
        return Some(Anchor { consumed: tokens.min(end + 2), ..alone });
    }
    let text = end + 1;
    let behind = text_end(entry, line, text)?;
    let consumed = behind + 2;
    if behind == text {
        return Some(Anchor { consumed, ..alone });
    }
    // "One leading Whitespace becomes kind Discard and still belongs to the reference text."
    let discard = usize::from(matches!(kind(line, text), Whitespace | Discard));
    Some(Anchor { text_place: text, text_count: behind - text, consumed, discard, ..alone })
}

/// Where the two brackets stand that close the text from `text` on: "a whole line must end in two
/// CloseBrackets and is all consumed; inline, the first CloseBracket must be followed by another,
/// with no escape".
fn text_end(entry: AnchorEntry, line: Lent<'_>, text: usize) -> Option<usize> {
    let tokens = line.kinds.len();
    let closes = |place: &usize| kind(line, *place) == CloseBracket;
    let first = match entry {
        AnchorEntry::Block => tokens - 2,
        AnchorEntry::Inline => (text..tokens).find(closes)?,
    };
    let both = first >= text && first + 1 < tokens && [first, first + 1].iter().all(closes);
    both.then_some(first)
}
