//! What the Rust sources mention and no call of ours reaches: each piece ends the process by
//! name, so that one that is missing can never pass for a panic of the Rust. One is reached, by the
//! reference text of an anchor: the test of an email address.

use std::marker::PhantomData;
use std::ops::Deref;

use crate::token::Token;

#[macro_export]
macro_rules! iff {
    ($test:expr, $yes:expr, $no:expr $(,)?) => {
        if $test { $yes } else { $no }
    };
}
pub use crate::iff;

/// A piece of asciidork that no call of ours should reach.
pub fn missing(what: &str) -> ! {
    eprintln!("compare: the Rust reached `{what}`, which stands in no file of the source folder");
    std::process::abort()
}

// ---- names that other functions of the same files mention

#[derive(Debug, Clone, Copy, PartialEq, Eq)]
pub enum CellContentStyle {
    AsciiDoc,
    Default,
    Emphasis,
    Header,
    Literal,
    Monospace,
    Strong,
}

#[derive(Debug, Clone, Copy, PartialEq, Eq)]
pub enum UrlScheme {
    Https,
    Http,
    Ftp,
    Irc,
    Mailto,
    File,
}

#[derive(Debug, Clone, Copy, PartialEq, Eq)]
pub enum DelimiterKind {
    Comment,
}

#[derive(Debug, Clone, Copy, PartialEq, Eq)]
pub struct Delimiter {
    pub kind: DelimiterKind,
}

impl Token<'_> {
    pub fn to_delimiter(&self) -> Option<Delimiter> {
        missing("Token::to_delimiter")
    }

    pub fn to_delimiter_kind(&self) -> Option<DelimiterKind> {
        missing("Token::to_delimiter_kind")
    }
}

#[derive(Debug, Clone, Copy, PartialEq, Eq)]
pub enum ListMarker {
    Star(u8),
    Dot(u8),
    Dash,
    Callout(Option<u8>),
    Digits(u16),
    Colons(u8),
    SemiColons,
}

impl ListMarker {
    pub fn is_description(&self) -> bool {
        missing("ListMarker::is_description")
    }
}

pub struct ListStack;

impl ListStack {
    pub fn starts_nested_list(&self, _: ListMarker) -> bool {
        missing("ListStack::starts_nested_list")
    }
}

pub struct SmallVec<A>(Vec<u8>, PhantomData<A>);

impl<A> FromIterator<u8> for SmallVec<A> {
    fn from_iter<I: IntoIterator<Item = u8>>(items: I) -> Self {
        SmallVec(items.into_iter().collect(), PhantomData)
    }
}

impl<A> Deref for SmallVec<A> {
    type Target = [u8];
    fn deref(&self) -> &[u8] {
        &self.0
    }
}

pub mod regx {
    pub struct Regex(&'static str);

    pub struct Captures;

    pub struct Match;

    pub static EMAIL_RE: Regex = Regex("EMAIL_RE");
    pub static REPEAT_STAR_LI_START: Regex = Regex("REPEAT_STAR_LI_START");
    pub static DIRECTIVE_ENDIF: Regex = Regex("DIRECTIVE_ENDIF");

    impl Regex {
        /// Only an email address is asked for. By the answer the Rust makes one token of several
        /// or leaves them; no number of ours may hang on it, so it need not be its own answer.
        pub fn is_match(&self, text: &str) -> bool {
            if self.0 != "EMAIL_RE" {
                super::missing(self.0);
            }
            text.split_once('@').is_some_and(|(name, host)| !name.is_empty() && !host.is_empty())
        }

        pub fn captures(&self, _: &str) -> Option<Captures> {
            super::missing(self.0)
        }
    }

    impl Captures {
        pub fn get(&self, _: usize) -> Option<Match> {
            super::missing("Captures::get")
        }
    }

    impl Match {
        pub fn len(&self) -> usize {
            super::missing("Match::len")
        }

        pub fn as_str(&self) -> &'static str {
            super::missing("Match::as_str")
        }
    }
}
