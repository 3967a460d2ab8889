//! Whether there is room for the rows, at the extremes: what the program `room_extremes` must
//! print. Worked out in 128 bits, where six for each token never wrap; nothing of the library is
//! called.

use std::fmt::Write as _;

use crate::rust_side::ROW;

pub const STDOUT: &str = "../crates/room_extremes/stdout";

/// Few tokens, the most of a line, and those round which a product or a sum leaves 64 bits.
const TOKENS: [u64; 10] =
    [0, 1, 2, 4_095, 4_096, 1 << 32, 3_074_457_345_618_258_602, 3_074_457_345_618_258_603, 1 << 63, u64::MAX];

/// A line for each case: of no number, of one under six for each token, of six for each, and of
/// the most that 64 bits can say. Where six for each are more than that, the two in the middle
/// are what is left of them in 64 bits, and one under it: a product that wraps asks no more.
pub fn answers() -> String {
    let mut out = String::new();
    for tokens in TOKENS {
        let wanted = u128::from(tokens) * ROW as u128;
        let wrapped = wanted as u64;
        let mut rooms = vec![0, wrapped.saturating_sub(1), wrapped, u64::MAX];
        rooms.sort_unstable();
        rooms.dedup();
        for room in rooms {
            let answer = if wanted <= u128::from(room) { "yes" } else { "no" };
            let _ = writeln!(out, "{tokens} tokens, {room} numbers: {answer}");
        }
    }
    out
}
