//! A proved reader of AsciiDoc attribute lines, for Rust.
//!
//! The reading is done by `libtelfjost.a`, which is proved; this crate lends it slices, sizes
//! its buffers and gives its numbers types. It holds no reading of its own, and its user writes
//! no `unsafe`.
//!
//! A [`Line`] is built token by token, or a [`Lent`] made of three slices that are there
//! already; a [`Set`] of substitutions is a value. Every call that the reader turns away is a
//! [`Refusal`], with its number. docs/RULES.md tells the rules of reading.
//!
//! ```
//! use telfjost::{Kind, Line};
//!
//! // edition="8, draft"]
//! let line: Line = [
//!     (Kind::Word, "edition"),
//!     (Kind::EqualSigns, "="),
//!     (Kind::DoubleQuote, "\""),
//!     (Kind::Digits, "8"),
//!     (Kind::Comma, ","),
//!     (Kind::Whitespace, " "),
//!     (Kind::Word, "draft"),
//!     (Kind::DoubleQuote, "\""),
//!     (Kind::CloseBracket, "]"),
//! ]
//! .into_iter()
//! .collect();
//! let list = line.lent().block_attr_list()?;
//! assert_eq!(list.values("edition").next().unwrap(), "8, draft");
//! # Ok::<(), telfjost::Refusal>(())
//! ```
//!
//! An [`Anchor`], `[[id,text]]`, is read from behind its two opening brackets:
//!
//! ```
//! use telfjost::{Kind, Line};
//!
//! // glucose,Fasting glucose]]
//! let line: Line = [
//!     (Kind::Word, "glucose"),
//!     (Kind::Comma, ","),
//!     (Kind::Word, "Fasting"),
//!     (Kind::Whitespace, " "),
//!     (Kind::Word, "glucose"),
//!     (Kind::CloseBracket, "]"),
//!     (Kind::CloseBracket, "]"),
//! ]
//! .into_iter()
//! .collect();
//! let anchor = line.lent().block_anchor()?.expect("an anchor");
//! assert_eq!(anchor.id(), "glucose");
//! assert_eq!(anchor.reference_text().unwrap(), "Fasting glucose");
//! # Ok::<(), telfjost::Refusal>(())
//! ```
//!
//! Linking: `build.rs` looks for the library in the folder that `TELFJOST_LIB_DIR` names, else
//! in `../target/staticlib`, where `tools/library` puts it.
#![deny(unsafe_code, missing_docs)]

mod anchor;
mod kind;
mod line;
mod list;
mod refusal;
mod subs;
#[allow(missing_docs)]
mod sys;

pub use anchor::Anchor;
pub use kind::Kind;
pub use line::{Lent, Line, Run, Text};
pub use list::{Diagnostic, Entry, Limit, List, Quotes, Reader, Row};
pub use refusal::Refusal;
pub use subs::{Set, Sub};
