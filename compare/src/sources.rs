//! The Rust sources, and the names under which they import each other and what stands in for the
//! rest. They say `crate::`, so the root of the harness, and that of the benchmark, use all of this.

#[allow(dead_code)]
#[path = "../target/rust/customize_subs.rs"]
pub mod customize_subs;
#[allow(dead_code)]
#[path = "../target/rust/deq.rs"]
pub mod deq;
#[allow(dead_code)]
#[path = "../target/rust/line.rs"]
pub mod line;
#[allow(dead_code, private_interfaces)]
#[path = "../target/rust/parse_attr_list.rs"]
pub mod parse_attr_list;
#[allow(dead_code)]
#[path = "../target/rust/substitutions.rs"]
pub mod substitutions;
#[allow(dead_code)]
#[path = "../target/rust/token.rs"]
pub mod token;

#[allow(unused_imports)]
pub mod internal {
    pub use crate::deq::*;
    pub use crate::line::*;
    pub use crate::parser::*;
    pub use crate::stand_in::*;
    pub use crate::substitutions::*;
    pub use crate::token::TokenSpec::*;
    pub use crate::token::*;
    pub use crate::unreached::*;
}

pub mod variants {
    pub mod token {
        pub use crate::token::TokenKind::*;
    }
}

/// The inline entry of anchors, which the Rust shows to the module above it alone.
#[allow(dead_code)]
pub fn parse_inline_anchor<'b>(
    parser: &mut crate::parser::Parser<'b>,
    line: &mut line::Line<'b>,
) -> crate::parser::Result<Option<parse_attr_list::AnchorSrc<'b>>> {
    parser.parse_inline_anchor(line)
}
