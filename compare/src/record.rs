//! The recorded answers: a fixed choice of calls for the program `replay`, and what the Rust
//! answers to them (sheet mode and the quote marks, which the Rust does not have: what the model
//! and the harness's own reading answer). The script `record` says what each number means.

use std::fmt::Write as _;

use crate::check::{Worker, expected_anchor, expected_set};
use crate::library::{Library, List};
use crate::lines::{A, COMMA, LineBuf, Tok, anchor_line, any_kinds_line, random_line, spoil_utf8};
use crate::model::{self, MOST_BYTES, MOST_TOKENS};
use crate::rng::Rng;
use crate::rust_side::{self, ANCHOR_ENTRIES, AnchorEntry, ENTRIES, Entry, Lent, Mode, NORMAL, ROW, Set};
use crate::token::TokenKind;

pub const STDIN: &str = "../crates/replay/stdin";
pub const STDOUT: &str = "../crates/replay/stdout";

/// The number that stands for an export in a recorded call.
fn entry_number(name: &str) -> usize {
    1 + Library::KNOWN.iter().position(|known| *known == name).expect("a known export")
}

#[derive(Default)]
pub struct Recorded {
    pub calls: String,
    pub answers: String,
}

/// An array as it is recorded: how many elements, how many are given, and these. The rest are
/// `fill`, which the program has there already.
fn array<T: PartialEq + Copy + Into<u64>>(out: &mut String, items: &[T], fill: T) {
    let given = items.iter().rposition(|item| *item != fill).map_or(0, |last| last + 1);
    let _ = write!(out, " {} {given}", items.len());
    for item in &items[..given] {
        let number: u64 = (*item).into();
        let _ = write!(out, " {number}");
    }
}

impl Recorded {
    fn line(&mut self, number: usize, line: Lent<'_>) {
        let _ = write!(self.calls, "{number}");
        array(&mut self.calls, line.kinds, TokenKind::CloseBracket as u8);
        array(&mut self.calls, line.pairs, 0u32);
        array(&mut self.calls, line.text, b'a');
    }

    fn list(&mut self, entry: Entry, line: Lent<'_>, rust_text: &[u8], numbers: usize) {
        self.line(1 + entry as usize, line);
        let _ = writeln!(self.calls, " {numbers}");
        let none = Library::default();
        let mut worker = Worker::new(&none);
        let answer =
            worker.expected(entry, line, rust_text, numbers).unwrap_or_else(|words| panic!("{words}"));
        let List { refusal, rows, consumed, rejoined } = answer;
        let _ = write!(self.answers, "{refusal} {rows} {consumed} {rejoined}");
        for number in worker.rows().as_flattened() {
            let _ = write!(self.answers, " {number}");
        }
        self.answers.push_str(" 0\n");
    }

    fn is_block_attr_list(&mut self, line: Lent<'_>) {
        self.line(entry_number("telfjost_is_block_attr_list"), line);
        self.calls.push('\n');
        let refusal = model::line_refusal(line.kinds, line.text, line.pairs, MOST_TOKENS);
        let yes = refusal == 0 && rust_side::is_block_attr_list(line);
        let _ = writeln!(self.answers, "{refusal} {}", u8::from(yes));
    }

    fn anchor(&mut self, name: &str, entry: AnchorEntry, line: Lent<'_>, rust_text: &[u8]) {
        self.line(entry_number(name), line);
        self.calls.push('\n');
        let answer = expected_anchor(entry, line, rust_text).unwrap_or_else(|words| panic!("{words}"));
        let [refusal, rest @ ..] = answer.numbers();
        let _ = write!(self.answers, "{refusal}");
        for number in rest {
            let _ = write!(self.answers, " {number}");
        }
        self.answers.push('\n');
    }

    fn subs(&mut self, mode: Mode, set: Set, text: Option<&[u8]>) {
        let name = if mode == Mode::Sheet { "telfjost_from_meta_sheet" } else { "telfjost_from_meta" };
        let _ = write!(self.calls, "{}", entry_number(name));
        for kind in set.places {
            let _ = write!(self.calls, " {kind}");
        }
        let _ = write!(self.calls, " {} {}", set.flags, u8::from(text.is_some()));
        array(&mut self.calls, text.unwrap_or(b""), b'a');
        self.calls.push('\n');
        let answer = expected_set(mode, set, text);
        let _ = write!(self.answers, "{}", answer.refusal);
        for kind in answer.set.places {
            let _ = write!(self.answers, " {kind}");
        }
        let _ = writeln!(self.answers, " {}", answer.set.flags);
    }
}

/// Lines that the documents speak of.
const LINES: [&str; 82] = [
    "]",
    "]a",
    "a]",
    "a,b]",
    "a,]",
    ",]",
    "k=\"a,b\",c]",
    "\",'\",']",
    "\",\",]",
    "a==b=c]",
    ".x#y%]",
    "#%o]",
    "a...b.c]",
    "a\\]b]c",
    "id=\"\"]",
    "id=a,#b]",
    "#a,id=b]",
    "subs=a,cols=b]",
    "role=a b]",
    "role=\"a  b\"]",
    "opts=\"a,b\"]",
    "options=a]",
    "options=\" ,a, \"]",
    "a.b]",
    "a .b]",
    "a. b]",
    ".]",
    "...]",
    "a ]",
    " ]",
    " , ]",
    "{x}]",
    "a{x}b]",
    "{x} a = {x} b {x}]",
    "k = v]",
    "k= v]",
    "k =v]",
    "k  v=]",
    "=a]",
    "\"a\"]",
    "'a']",
    "\"a']",
    "\"a\"b]",
    "a=\"b\"c]",
    "#a.b%c]",
    "##]",
    "a\\,b]",
    "a[b]c]",
    "a[b=c]d]",
    "\"a]b\"]",
    "a\"b=c\"d]",
    "quote,Mr X,Letters]",
    "\"\"]",
    "''{x}]",
    "k=\"\"]",
    "k='v']",
    "k=\"v']",
    "id=\"x\"]",
    "id='x']",
    "#x]",
    "role=\"a\"]",
    "opts='a,b']",
    "subs='a',cols=\"1,2\"]",
    "\"{x}a\"]",
    "{x}'a'{x}]",
    "k={x}\"a{x}\"]",
    "k= 'a' ]",
    "\"a\".b]",
    "a.b\"c\"]",
    "',\"',\"]",
    "a]b,c]",
    "name=O'Brien,edition=3,second=O'Neill]",
    "title=\"Glucose,edition=3,note=\"see below\",width=1450]",
    "\",\",a",
    "\"a,b\",k=v]",
    "\"a,b\"]",
    "]\",\"",
    "\",a,',b,',\",c]",
    "\",',\",',\",',\",']",
    "',',\",',\",',\",',\"]",
    "\",',,\",,',\",,',\",,']",
    "',\",\",',\",',\",,']",
];

/// Lines of anchors that document 02 speaks of, and others beside them.
const ANCHORS: [&str; 53] = [
    "a]]",
    "a]",
    "a]b c",
    "a]]b",
    "a]⟨Word b⟩⟨Word b⟩",
    "a b.c]]",
    "a\\]]",
    "a",
    "a b",
    "{x}]]",
    "{x}a{x}]]",
    "a{x},{x}b{x}]]",
    "⟨Word ⟩]]",
    "⟨AttrRef ⟩]]",
    "⟨Word ⟩{x}]]",
    "⟨Word ⟩,b]]",
    "a,b]]",
    "a, b]]",
    "a, ]]",
    "a,]]",
    "a,⟨Word ⟩]]",
    "a,⟨Whitespace ⟩]]",
    "a,⟨Whitespace  ⟩⟨Whitespace  ⟩b]]",
    "a,⟨Discard  ⟩b]]",
    "a,⟨Discard ⟩]]",
    "a,b⟨Discard  ⟩]]",
    "a,{x} b]]",
    "a, {x}]]",
    "a,b,c]]",
    "a,b]",
    "a,b",
    "a,]",
    "a,",
    "a,b]c",
    "a,b]]c",
    "a,b]]]",
    "a,]]]",
    "a,b]c]]",
    "a,b]\\]]",
    "a,b\\]]",
    "a,b\\]c]]",
    "a,b ⟨Word u⟩.⟨Word v⟩⟨MaybeEmail @ex.com⟩ c]]",
    "a, ⟨Word u⟩⟨MaybeEmail @ex.com⟩]]",
    "a,⟨MaybeEmail u@ex.com⟩]]",
    "#]]",
    "...,b]]",
    "[a]]",
    "9]]",
    "\"a]]",
    "'a,b]]",
    " a]]",
    "]]",
    ",",
];

/// A line with the text that the Rust is given, of the same lengths.
type ForBoth = (LineBuf, Vec<u8>);

fn for_both(line: LineBuf) -> ForBoth {
    let text = line.text.clone();
    (line, text)
}

/// The lines that are recorded: those of the documents, random ones, damaged ones, long ones.
fn lines(rng: &mut Rng, how_many: usize, bracketed: bool) -> Vec<ForBoth> {
    let mut lines: Vec<ForBoth> = Vec::new();
    let mut add = |line: LineBuf| lines.push(for_both(line));
    for text in LINES {
        let open = if bracketed { "[" } else { "" };
        add(LineBuf::lex(&format!("{open}{text}")));
    }
    let mut line = LineBuf::default();
    for turn in 0..how_many {
        let len = 1 + rng.below(11);
        if turn % 3 == 0 {
            any_kinds_line(&mut line, rng, len);
        } else {
            random_line(&mut line, rng, len);
        }
        if bracketed && !rng.one_in(3) {
            line.kinds[0] = TokenKind::OpenBracket as u8;
        }
        add(line.clone());
    }
    refused_lines().for_each(&mut add);
    let first = if bracketed { TokenKind::OpenBracket } else { TokenKind::Word };
    long_lines(&[(first, "")]).into_iter().for_each(&mut add);
    // Lexemes that are no UTF-8.
    if !bracketed {
        for _ in 0..how_many / 20 {
            let len = 1 + rng.below(9);
            random_line(&mut line, rng, len);
            let for_rust = spoil_utf8(&mut line, rng);
            lines.push((line.clone(), for_rust));
        }
    }
    lines
}

/// Refused, each number, alone and with a later one.
fn refused_lines() -> impl Iterator<Item = LineBuf> {
    (0..14).map(|fault| {
        let mut line = LineBuf::lex("[a,b]");
        match fault {
            0 => line.clear(),
            1 => line.kinds.clear(),
            2 => line.pairs.truncate(9),
            3 => line.pairs.push(5),
            4 => line.kinds[4] = 51,
            5 => line.kinds[0] = 255,
            6 => line.pairs[9] = 2,
            7 => line.pairs[2] = 0,
            8 => line.pairs[8] = u32::MAX,
            9 => line.pairs[1] = u32::MAX,
            10 => (line.kinds[1], line.pairs[9]) = (51, 2),
            11 => {
                line.kinds[1] = 51;
                line.pairs.pop();
            }
            12 => line.text.resize(MOST_BYTES, b'a'),
            _ => {
                line.text.resize(MOST_BYTES + 1, b'a');
                line.pairs.pop();
            }
        }
        line
    })
}

/// 4,096 tokens and one more: zero-length brackets behind the first.
fn long_lines(first: &[Tok]) -> [LineBuf; 2] {
    [MOST_TOKENS, MOST_TOKENS + 1].map(|tokens| {
        let mut line = LineBuf::of(first);
        while line.kinds.len() < tokens {
            line.push(TokenKind::CloseBracket, b"");
        }
        line
    })
}

/// The lines of anchors that are recorded, likewise.
fn anchor_lines(rng: &mut Rng, how_many: usize) -> Vec<ForBoth> {
    let mut lines: Vec<ForBoth> = ANCHORS.iter().map(|text| for_both(LineBuf::lex(text))).collect();
    let mut line = LineBuf::default();
    for turn in 0..how_many {
        let len = 1 + rng.below(11);
        anchor_line(&mut line, rng, len);
        let for_rust = if turn % 4 == 0 { spoil_utf8(&mut line, rng) } else { line.text.clone() };
        lines.push((line.clone(), for_rust));
    }
    lines.extend(refused_lines().map(for_both));
    let [longest, _] = long_lines(&[A, COMMA]);
    let [_, too_long] = long_lines(&[(TokenKind::Word, "")]);
    lines.extend([longest, too_long].map(for_both));
    lines
}

const TEXTS: [&str; 40] = [
    "",
    "none",
    "normal",
    "verbatim",
    "quotes",
    "+callouts",
    "callouts+",
    "-callouts",
    "quotes, macros",
    "quotes,macros",
    " quotes ",
    "+ quotes",
    "-normal",
    "+normal",
    "normal+",
    "verbatim+",
    "-verbatim",
    "+verbatim",
    "none+",
    "-none",
    "specialchars,attributes",
    "-specialchars,+specialchars",
    "quotes+,macros+,callouts+",
    "post_replacements",
    "post_replacements+,-quotes",
    "abc",
    "abcd",
    "+abc",
    "quote",
    "Quotes",
    "quotes-",
    "--quotes",
    "++quotes",
    "quotes++",
    "+quotes+",
    "-quotes+",
    ",",
    ",,quotes,,",
    "   ,    , quotes",
    "+,-,a+b",
];

/// Everything that is recorded, for the functions that are listed.
pub fn recorded(listed: &[&str]) -> Recorded {
    let mut out = Recorded::default();
    let mut rng = Rng::new(0x5eed);
    if listed.contains(&"telfjost_is_block_attr_list") {
        for (line, _) in lines(&mut rng, 150, true) {
            out.is_block_attr_list(line.lent());
        }
    }
    for (mode, name) in [(Mode::Port, "telfjost_from_meta"), (Mode::Sheet, "telfjost_from_meta_sheet")] {
        if !listed.contains(&name) {
            continue;
        }
        let mut rng = Rng::new(0x5e7);
        let held = model::held_sets();
        let flagged = Set { flags: 127, ..NORMAL };
        for text in TEXTS {
            out.subs(mode, NORMAL, Some(text.as_bytes()));
            for _ in 0..5 {
                out.subs(mode, held[rng.below(held.len())], Some(text.as_bytes()));
            }
        }
        for set in
            [NORMAL, flagged, Set { flags: 255, ..NORMAL }, Set { places: [1, 0, 2, 0, 0, 0, 0], flags: 3 }]
        {
            out.subs(mode, set, None);
            for bytes in [0, MOST_BYTES, MOST_BYTES + 1] {
                out.subs(mode, set, Some(&vec![b'a'; bytes]));
            }
        }
    }
    let mut rng = Rng::new(0x115f);
    for entry in ENTRIES {
        if !listed.contains(&Library::KNOWN[entry as usize]) {
            continue;
        }
        for (turn, (line, for_rust)) in lines(&mut rng, 100, false).into_iter().enumerate() {
            let tokens = line.kinds.len();
            let numbers = match turn % 8 {
                0 => ROW * tokens + 3,
                4 if turn > LINES.len() => (ROW * tokens).saturating_sub(1),
                6 if turn > LINES.len() => (ROW - 1) * tokens,
                _ => ROW * tokens,
            };
            out.list(entry, line.lent(), &for_rust, numbers);
        }
    }
    let mut rng = Rng::new(0xa2c);
    for (entry, name) in ANCHOR_ENTRIES.into_iter().zip(["telfjost_block_anchor", "telfjost_inline_anchor"]) {
        if !listed.contains(&name) {
            continue;
        }
        for (line, for_rust) in anchor_lines(&mut rng, 60) {
            out.anchor(name, entry, line.lent(), &for_rust);
        }
    }
    out
}
