//! What the tests of lists and of anchors both need: lines written as text, and runs.

use telfjost::{Kind, Line, Run};

/// Each mark is one token; `...` and `==` too, and `12`.
pub fn line(text: &str) -> Line {
    let mut line = Line::new();
    let mut rest = text;
    while let Some(first) = rest.chars().next() {
        let (kind, len) = match first {
            ']' => (Kind::CloseBracket, 1),
            '[' => (Kind::OpenBracket, 1),
            ',' => (Kind::Comma, 1),
            '"' => (Kind::DoubleQuote, 1),
            '\'' => (Kind::SingleQuote, 1),
            '#' => (Kind::Hash, 1),
            '%' => (Kind::Percent, 1),
            '\\' => (Kind::Backslash, 1),
            ' ' => (Kind::Whitespace, 1),
            '.' => (Kind::Dots, rest.len() - rest.trim_start_matches('.').len()),
            '=' => (Kind::EqualSigns, rest.len() - rest.trim_start_matches('=').len()),
            '{' => (Kind::AttrRef, rest.find('}').unwrap() + 1),
            '0'..='9' => {
                (Kind::Digits, rest.len() - rest.trim_start_matches(|c: char| c.is_ascii_digit()).len())
            }
            _ => (Kind::Word, rest.find(|c: char| !c.is_alphanumeric()).unwrap_or(rest.len())),
        };
        assert!(len > 0, "no token begins with {first}");
        line.push(kind, &rest[..len]);
        rest = &rest[len..];
    }
    line
}

pub fn run(place: usize, count: usize) -> Run {
    Run { place, count }
}
