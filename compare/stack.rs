//! How many bytes of stack a call takes. Each call runs on a stack of its own that is painted
//! beforehand; what differs from the paint afterwards was written to, and the lowest such byte tells
//! how far the call went. What a call of a function that does nothing takes on the same stack is
//! subtracted, so that a number here is the library's own bytes below its return address.
//!
//! The lines are attributes of every sort, and random tokens of every kind that the reader tells apart: at
//! each length from 1 token up to the viewer's limit, and at every 191st beyond.

use std::arch::asm;
use std::process::ExitCode;

const MAIN_TOKENS: usize = 4096;
const VIEWER_TOKENS: usize = 256;
/// The most that a call of the viewer may take.
const VIEWERS_STACK: usize = 2048;
/// The main reader's array for its longest lines: two bytes a token.
const MAINS_ARRAY: usize = 2 * MAIN_TOKENS;
const ROW: usize = 6;

#[repr(C)]
#[derive(Default, Clone, Copy)]
struct List {
    refusal: usize,
    rows: usize,
    consumed: usize,
    rejoined: usize,
}

type Reading =
    unsafe extern "C" fn(*const u8, usize, *const u8, usize, *const u32, usize, *mut u32, usize) -> List;

macro_rules! readings {
    ($($name:ident)*) => {
        unsafe extern "C" {
            $(fn $name(
                kinds: *const u8,
                kinds_len: usize,
                text: *const u8,
                text_len: usize,
                pairs: *const u32,
                pairs_len: usize,
                rows: *mut u32,
                rows_len: usize,
            ) -> List;)*
        }
        const READINGS: [(&str, Reading); 8] = [$((stringify!($name), $name),)*];
    };
}

// The main reader's first.
readings! {
    telfjost_block_attr_list
    telfjost_block_macro_attr_list
    telfjost_inline_macro_attr_list
    telfjost_link_macro_attr_list
    telfjost_viewer_block_attr_list
    telfjost_viewer_block_macro_attr_list
    telfjost_viewer_inline_macro_attr_list
    telfjost_viewer_link_macro_attr_list
}

/// Has the shape of a reading, and takes its return address alone.
#[inline(never)]
unsafe extern "C" fn nothing(
    _: *const u8,
    _: usize,
    _: *const u8,
    _: usize,
    _: *const u32,
    _: usize,
    _: *mut u32,
    _: usize,
) -> List {
    List::default()
}

// ---- lines

/// Kinds by their numbers, and texts that make names, groups, shorthand, quotes and escapes.
const TOKENS: [(u8, &str); 20] = [
    (50, "a"),
    (50, "id"),
    (50, "role"),
    (50, "opts"),
    (50, "subs"),
    (50, "options"),
    (3, "{x}"),
    (5, "\\"),
    (10, "]"),
    (13, ","),
    (19, "\""),
    (20, "."),
    (20, "..."),
    (23, "="),
    (23, "=="),
    (27, "#"),
    (34, "["),
    (36, "%"),
    (43, "'"),
    (49, " "),
];

/// Attributes of every sort; a line repeats one of them, or all.
const SORTS: [&[usize]; 14] = [
    &[0, 9],
    &[9],
    &[0, 13, 10, 0, 9, 0, 10, 9],
    &[1, 13, 10, 0, 6, 0, 10, 9],
    &[1, 13, 10, 10, 9],
    &[2, 13, 10, 0, 19, 0, 10, 9],
    &[3, 13, 18, 0, 9, 0, 18, 9],
    &[5, 13, 0, 9],
    &[4, 13, 10, 0, 10, 9],
    &[11, 0, 15, 0, 17, 0, 9],
    &[0, 11, 0, 15, 0, 17, 0, 9],
    &[0, 12, 0, 11, 0, 9],
    &[10, 9, 18, 10, 9, 18],
    &[0, 19, 0, 7, 8, 16, 19, 0],
];

#[derive(Default)]
struct Line {
    kinds: Vec<u8>,
    text: Vec<u8>,
    pairs: Vec<u32>,
}

impl Line {
    /// A line of so many tokens, the last of which closes; `which` gives the token of each place.
    fn of(tokens: usize, mut which: impl FnMut(usize) -> usize) -> Line {
        let mut line = Line::default();
        for place in 0..tokens {
            let (kind, text) = if place + 1 == tokens { (10, "]") } else { TOKENS[which(place)] };
            line.kinds.push(kind);
            line.pairs.extend([line.text.len() as u32, text.len() as u32]);
            line.text.extend_from_slice(text.as_bytes());
        }
        line
    }
}

struct Rng(u64);

impl Rng {
    fn below(&mut self, n: usize) -> usize {
        self.0 ^= self.0 << 13;
        self.0 ^= self.0 >> 7;
        self.0 ^= self.0 << 17;
        (self.0 >> 16) as usize % n
    }
}

/// Lines of so many tokens: of each sort, of all in turn, and random ones.
fn lines(tokens: usize, rng: &mut Rng) -> Vec<Line> {
    let all = SORTS.concat();
    let mut lines: Vec<Line> =
        SORTS.iter().map(|sort| Line::of(tokens, |place| sort[place % sort.len()])).collect();
    lines.push(Line::of(tokens, |place| all[place % all.len()]));
    for _ in 0..if tokens <= VIEWER_TOKENS { 12 } else { 4 } {
        lines.push(Line::of(tokens, |_| rng.below(TOKENS.len())));
        let mut left: &[usize] = &[];
        lines.push(Line::of(tokens, |_| {
            if left.is_empty() {
                left = SORTS[rng.below(SORTS.len())];
            }
            let first = left[0];
            left = &left[1..];
            first
        }));
    }
    lines
}

// ---- the painted stack

const STACK: usize = 1 << 15;

struct Call<'l> {
    reading: Reading,
    line: &'l Line,
    rows: &'l mut [u32],
    answer: List,
}

/// Runs on the painted stack.
unsafe extern "C" fn run(call: *mut Call<'_>) {
    // SAFETY: the pointer is that of a live call, and each pointer and length below is that of a slice.
    unsafe {
        let call = &mut *call;
        let Line { kinds, text, pairs } = call.line;
        call.answer = (call.reading)(
            kinds.as_ptr(),
            kinds.len(),
            text.as_ptr(),
            text.len(),
            pairs.as_ptr(),
            pairs.len(),
            call.rows.as_mut_ptr(),
            call.rows.len(),
        );
    }
}

/// The colour of the byte at a place: no number that a call would leave at many of them.
fn colour(at: usize) -> u8 {
    (at.wrapping_mul(0x9e37_79b9) >> 13) as u8 | 1
}

struct Painted(Vec<u128>);

impl Painted {
    fn new() -> Painted {
        let mut stack = Painted(vec![0; STACK / 16]);
        stack.paint(0);
        stack
    }

    fn bytes(&mut self) -> &mut [u8] {
        // SAFETY: any byte is a byte of a u128.
        unsafe { std::slice::from_raw_parts_mut(self.0.as_mut_ptr().cast(), STACK) }
    }

    fn paint(&mut self, from: usize) {
        for (at, byte) in self.bytes().iter_mut().enumerate().skip(from) {
            *byte = colour(at);
        }
    }

    /// How far down from the top a call of the reading goes, and what it answers.
    fn depth(&mut self, reading: Reading, line: &Line, rows: &mut [u32]) -> (usize, List) {
        let mut call = Call { reading, line, rows, answer: List::default() };
        // SAFETY: the memory is ours, its end is a multiple of 16, and it is large enough, as the check below shows.
        unsafe {
            let top = self.0.as_mut_ptr().add(self.0.len());
            asm!(
                "mov r12, rsp",
                "mov rsp, {top}",
                "call {run}",
                "mov rsp, r12",
                top = in(reg) top,
                run = sym run,
                in("rdi") &raw mut call,
                out("r12") _,
                clobber_abi("C"),
            );
        }
        let answer = call.answer;
        let lowest = self.bytes().iter().enumerate().position(|(at, byte)| *byte != colour(at));
        let lowest = lowest.unwrap_or(STACK);
        assert!(lowest > 4096, "the painted stack is too small");
        self.paint(lowest);
        (STACK - lowest, answer)
    }
}

/// The most bytes that a reading takes over the lines of these lengths, how many of them it reads, and how
/// many there are.
fn most(
    stack: &mut Painted,
    reading: Reading,
    base: usize,
    lengths: impl Iterator<Item = usize>,
) -> (usize, u64, u64) {
    let mut rng = Rng(0x7e1f_1057);
    let mut rows = vec![0; ROW * MAIN_TOKENS];
    let (mut most, mut read, mut tried) = (0, 0, 0);
    for tokens in lengths {
        for line in lines(tokens, &mut rng) {
            tried += 1;
            let (depth, answer) = stack.depth(reading, &line, &mut rows);
            most = most.max(depth - base);
            read += u64::from(answer.refusal == 0);
        }
    }
    (most, read, tried)
}

fn main() -> ExitCode {
    let mut stack = Painted::new();
    let line = Line::of(1, |_| 0);
    let (base, _) = stack.depth(nothing, &line, &mut []);
    let mut right = true;
    println!(
        "bytes of stack that one call takes, at most, on lines of every sort of attribute and random ones:"
    );
    for (at, (name, reading)) in READINGS.into_iter().enumerate() {
        let of_viewer = at >= 4;
        let mut shown = Vec::new();
        for (from, to, step) in [(1, VIEWER_TOKENS, 1), (VIEWER_TOKENS + 1, MAIN_TOKENS, 191)] {
            let (most, read, tried) = most(&mut stack, reading, base, (from..=to).step_by(step));
            // the viewer refuses what is over its limit, and each reader reads over half of the rest
            let refuses_all = of_viewer && from > VIEWER_TOKENS;
            right &= if refuses_all { read == 0 } else { 2 * read > tried };
            right &= if of_viewer { most <= VIEWERS_STACK } else { most > MAINS_ARRAY };
            shown.push(format!("{from} to {to} tokens {most} ({read} lines read)"));
        }
        println!("  {name}: {}", shown.join(", "));
    }
    if right {
        println!("no call of the viewer takes over {VIEWERS_STACK} bytes");
        return ExitCode::SUCCESS;
    }
    println!("WRONG: a call of the viewer takes over {VIEWERS_STACK} bytes, or these numbers tell nothing");
    ExitCode::FAILURE
}
