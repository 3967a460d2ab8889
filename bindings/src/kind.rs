use std::fmt;

macro_rules! kinds {
    ($($name:ident)*) => {
        /// A token's kind: the Rust's `TokenKind`, in its order, 0 to 50.
        #[derive(Debug, Clone, Copy, PartialEq, Eq, Hash, PartialOrd, Ord)]
        #[repr(u8)]
        #[allow(missing_docs)]
        pub enum Kind {
            $($name,)*
        }

        impl Kind {
            /// Every kind, by its number.
            pub const ALL: [Kind; 51] = [$(Kind::$name,)*];

            /// Its name, as the Rust writes it.
            pub const fn name(self) -> &'static str {
                match self {
                    $(Kind::$name => stringify!($name),)*
                }
            }
        }
    };
}

kinds! {
    Ampersand AttrDef AttrPassDbl AttrRef Backtick Backslash Bang CalloutNumber Caret
    CloseBrace CloseBracket CloseParens Colon Comma Dashes DelimiterLine Digits Directive
    Discard DoubleQuote Dots Email Entity EqualSigns Eof ForwardSlashes GreaterThan Hash
    LessThan MacroName MaybeEmail Newline NoBreakSpace OpenBrace OpenBracket OpenParens
    Percent Pipe Plus PreprocPassthru Punctuation QuestionMark SemiColon SingleQuote Star
    TermDelimiter Tilde Underscore UriScheme Whitespace Word
}

impl Kind {
    /// Its number in a line's kinds.
    ///
    /// ```
    /// use telfjost::Kind;
    /// assert_eq!(Kind::CloseBracket.number(), 10);
    /// assert_eq!(Kind::ALL[10], Kind::CloseBracket);
    /// ```
    pub const fn number(self) -> u8 {
        self as u8
    }

    /// The kind of a number, if there is one.
    pub fn of_number(number: u8) -> Option<Kind> {
        Kind::ALL.get(usize::from(number)).copied()
    }

    /// The kind of a name, as the Rust writes it: `Comma`, `DoubleQuote`.
    ///
    /// ```
    /// use telfjost::Kind;
    /// assert_eq!(Kind::of_name("EqualSigns"), Some(Kind::EqualSigns));
    /// assert_eq!(Kind::of_name("equalsigns"), None);
    /// ```
    pub fn of_name(name: &str) -> Option<Kind> {
        Kind::ALL.into_iter().find(|kind| kind.name() == name)
    }
}

impl fmt::Display for Kind {
    fn fmt(&self, f: &mut fmt::Formatter<'_>) -> fmt::Result {
        f.pad(self.name())
    }
}
