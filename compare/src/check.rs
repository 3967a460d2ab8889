//! One case at a time: what must come back, what came back, and where the two differ.

use std::collections::BTreeMap;
use std::fmt::Write as _;

use crate::anchor;
use crate::library::{Anchor, Bool, Library, List, Reader, SetAnswer};
use crate::lines::LineBuf;
use crate::model::{self, MOST_TOKENS, VIEWER_TOKENS};
use crate::numbers::{MARKED, Row, Unmarked};
use crate::reading::{Reading, commas_inside};
use crate::rust_side::{
    self, ANCHOR_ENTRIES, AnchorEntry, Entry, KINDS, Lent, Mode, Move, Outcome, ROW, STARTS, Set,
};

/// Numbers before and behind the row buffer that no call may touch.
const GUARD: usize = 8;

/// What was compared, to show that the cases tell something.
#[derive(Default, Clone)]
pub struct Tally {
    pub cases: BTreeMap<&'static str, u64>,
    pub refusals: [u64; 13],
    pub tags: [u64; 9],
    /// Rows of the tags of `MARKED`, by their marks.
    pub marks: [[u64; 3]; MARKED.len()],
    pub diagnostics: [u64; 5],
    /// Lines read, by how many commas were taken back: none, one, two, more.
    pub taken_back: [u64; 4],
    /// Lines in which a comma was taken back, and another number of commas stands inside complete pairs.
    pub crossing: u64,
    /// Moves by what they did: see `MOVED`.
    pub moves: [u64; 6],
    pub yes: u64,
    pub other_closing: u64,
    /// Calls of the viewer, by what is due of it: see `VIEWED`.
    pub viewed: [u64; 4],
    /// Anchors of each entry, by what is due: see `ANCHORED`.
    pub anchors: [[u64; ANCHORED.len()]; ANCHOR_ENTRIES.len()],
    pub panics: BTreeMap<String, u64>,
}

/// What is due of the viewer, in the order of `Tally::viewed`.
pub const VIEWED: [&str; 4] = [
    "the main reader's answer",
    "2, as the main reader",
    "2 where the main reader reads",
    "2 where the main reader refuses with 3 to 8",
];

/// What is due of the line of an anchor, in the order of `Tally::anchors`.
pub const ANCHORED: [&str; 11] = [
    "no anchor",
    "an id alone",
    "an id and a text",
    "an id and a text that begins with a Discard",
    "refused with 12",
    "with 1",
    "with 2",
    "with 3",
    "with 4",
    "with 5",
    "with 6",
];

/// Where among `ANCHORED` an answer belongs.
pub fn anchored(due: Anchor) -> usize {
    match (due.refusal, due.anchor, due.text_count, due.discard) {
        (0, 0, ..) => 0,
        (0, _, 0, _) => 1,
        (0, .., 0) => 2,
        (0, ..) => 3,
        (12, ..) => 4,
        (refusal, ..) => 4 + refusal,
    }
}

/// What a move did, in the order of `Tally::moves`.
pub const MOVED: [&str; 6] = [
    "another order",
    "another flag alone",
    "nothing: the set is so already",
    "nothing: the number names no kind",
    "refused with 10",
    "refused with 11",
];

impl Tally {
    pub fn add(&mut self, other: &Tally) {
        for (class, count) in &other.cases {
            *self.cases.entry(class).or_insert(0) += count;
        }
        for (at, count) in &other.panics {
            *self.panics.entry(at.clone()).or_insert(0) += count;
        }
        let pairs = [
            (&mut self.refusals[..], &other.refusals[..]),
            (&mut self.tags[..], &other.tags[..]),
            (self.marks.as_flattened_mut(), other.marks.as_flattened()),
            (&mut self.diagnostics[..], &other.diagnostics[..]),
            (&mut self.taken_back[..], &other.taken_back[..]),
            (&mut self.moves[..], &other.moves[..]),
            (&mut self.viewed[..], &other.viewed[..]),
            (self.anchors.as_flattened_mut(), other.anchors.as_flattened()),
        ];
        for (mine, theirs) in pairs {
            for (a, b) in mine.iter_mut().zip(theirs) {
                *a += b;
            }
        }
        self.crossing += other.crossing;
        self.yes += other.yes;
        self.other_closing += other.other_closing;
    }
}

/// A differing case, whole, in words.
pub type Checked = Result<(), Box<String>>;

/// What is due of a line that passed checks 1 to 6: the Rust's answer, and the harness's own
/// reading, which must have the Rust's tokens consumed, its pops of the stack of delimiting, and its
/// five numbers of each row.
#[derive(Default)]
pub struct Due {
    /// The Rust's rows, also where this reader is to refuse the line.
    pub rust: Vec<Unmarked>,
    own: Reading,
}

impl Due {
    /// Reads the line both ways; the Rust may be given another text of the same lengths.
    pub fn read(&mut self, entry: Entry, line: Lent<'_>, rust_text: &[u8]) -> Result<Outcome, Box<String>> {
        let outcome = rust_side::read(entry, Lent { text: rust_text, ..line }, &mut self.rust);
        let consumed = self.own.read(entry, line);
        let same = match outcome {
            Outcome::Read { consumed: of_rust, rejoined } => {
                consumed == Some(of_rust) && self.rejoined() == rejoined && self.same_rows()
            }
            Outcome::OtherClosing(_) | Outcome::Panicked => {
                consumed.is_none() && self.rejoined() == 0 && self.rows().is_empty()
            }
        };
        if same {
            return Ok(outcome);
        }
        let mut words = describe_line(&format!("{entry:?}"), line);
        let _ = writeln!(words, "the Rust: {outcome:?}, rows {:?}", self.rust);
        let _ = writeln!(
            words,
            "the harness's own reading: consumed {consumed:?}, taken back {}, rows {:?}",
            self.rejoined(),
            self.rows()
        );
        Err(Box::new(words))
    }

    fn same_rows(&self) -> bool {
        self.rust.len() == self.rows().len()
            && self.rust.iter().zip(self.rows()).all(|(rust, own)| own.starts_with(rust))
    }

    /// The commas taken back that are due, 0 where the line is refused.
    pub fn rejoined(&self) -> usize {
        self.own.rejoined
    }

    /// The rows due, none where the line is refused.
    pub fn rows(&self) -> &[Row] {
        &self.own.rows
    }
}

pub struct Worker<'l> {
    library: &'l Library,
    pub tally: Tally,
    pub class: &'static str,
    due: Due,
    buffer: Vec<u32>,
    lent: LineBuf,
    /// Whether the last anchor's call passed NULL for what has no elements; every second one does.
    null: bool,
}

fn refused(refusal: usize) -> List {
    List { refusal, rows: 0, consumed: 0, rejoined: 0 }
}

/// The number that stands in the buffer at `at` before a call.
fn canary(salt: u32, at: usize) -> u32 {
    (at as u32).wrapping_mul(0x9e37_79b1) ^ salt.wrapping_mul(0x85eb_ca6b)
}

impl<'l> Worker<'l> {
    pub fn new(library: &'l Library) -> Self {
        Worker {
            library,
            tally: Tally::default(),
            class: "",
            due: Due::default(),
            buffer: Vec::new(),
            lent: LineBuf::default(),
            null: false,
        }
    }

    fn count(&mut self, refusal: usize) {
        *self.tally.cases.entry(self.class).or_insert(0) += 1;
        self.tally.refusals[refusal] += 1;
    }

    /// What the documents ask of the main reader's entry; the rows are left in `self.rows()`.
    pub fn expected(
        &mut self,
        entry: Entry,
        line: Lent<'_>,
        rust_text: &[u8],
        numbers: usize,
    ) -> Result<List, Box<String>> {
        let early = match model::line_refusal(line.kinds, line.text, line.pairs, MOST_TOKENS) {
            0 => model::room_refusal(line.kinds.len(), numbers),
            refusal => refusal,
        };
        if early != 0 {
            self.due.own.clear();
            return Ok(refused(early));
        }
        Ok(match self.due.read(entry, line, rust_text)? {
            Outcome::Read { consumed, rejoined } => {
                List { refusal: 0, rows: self.rows().len(), consumed, rejoined }
            }
            Outcome::OtherClosing(_) => {
                self.tally.other_closing += 1;
                refused(8)
            }
            Outcome::Panicked => refused(8),
        })
    }

    /// The rows due of the last line, none where it is refused.
    pub fn rows(&self) -> &[Row] {
        self.due.rows()
    }

    /// A list's entry with a row buffer of `numbers` numbers.
    pub fn list(&mut self, entry: Entry, line: Lent<'_>, numbers: usize, salt: u32) -> Checked {
        self.list_for(entry, line, line.text, numbers, salt)
    }

    /// The same, where the Rust is given another text of the same lengths.
    pub fn list_for(
        &mut self,
        entry: Entry,
        line: Lent<'_>,
        rust_text: &[u8],
        numbers: usize,
        salt: u32,
    ) -> Checked {
        if !self.library.has_list(Reader::Main, entry) {
            return Ok(());
        }
        let of_main = self.expected(entry, line, rust_text, numbers)?;
        self.count(of_main.refusal);
        self.count_rows(line, of_main);
        self.call_list(Reader::Main, entry, line, numbers, salt, of_main)?;
        if !self.library.has_list(Reader::Viewer, entry) {
            return Ok(());
        }
        let of_viewer = self.of_viewer(line, of_main);
        self.call_list(Reader::Viewer, entry, line, numbers, salt, of_viewer)
    }

    /// What is due of the viewer: "up to 256 tokens it answers and refuses as the main reader does,
    /// more get 2 at that row's place in the order".
    fn of_viewer(&mut self, line: Lent<'_>, of_main: List) -> List {
        let over = line.kinds.len() > VIEWER_TOKENS;
        let as_what = match (over, of_main.refusal) {
            (false, _) => 0,
            (true, 2) => 1,
            (true, 0) => 2,
            (true, _) => 3,
        };
        self.tally.viewed[as_what] += 1;
        if !over {
            return of_main;
        }
        self.due.own.clear();
        refused(model::line_refusal(line.kinds, line.text, line.pairs, VIEWER_TOKENS))
    }

    fn count_rows(&mut self, line: Lent<'_>, of_main: List) {
        for [tag, _, number, .., mark] in self.due.rows() {
            self.tally.tags[*tag as usize] += 1;
            if *tag == 7 {
                self.tally.diagnostics[*number as usize] += 1;
            }
            if let Some(at) = MARKED.iter().position(|marked| marked == tag) {
                self.tally.marks[at][*mark as usize] += 1;
            }
        }
        if of_main.refusal == 0 {
            let rejoined = of_main.rejoined;
            self.tally.taken_back[rejoined.min(3)] += 1;
            self.tally.crossing += u64::from(rejoined != 0 && rejoined != commas_inside(line));
        }
    }

    /// One reader's entry, whose answer is due, with the rows of `self.rows()`.
    fn call_list(
        &mut self,
        reader: Reader,
        entry: Entry,
        line: Lent<'_>,
        numbers: usize,
        salt: u32,
        expected: List,
    ) -> Checked {
        self.buffer.clear();
        self.buffer.extend((0..numbers + 2 * GUARD).map(|at| canary(salt, at)));
        let rows = &mut self.buffer[GUARD..GUARD + numbers];
        let Some(given) = self.library.list(reader, entry, line, rows, salt % 2 == 0) else {
            return Ok(());
        };
        if given == expected && self.buffer_is_right(salt) {
            return Ok(());
        }
        let wrote: Vec<(usize, u32)> = self
            .buffer
            .iter()
            .enumerate()
            .filter(|(at, number)| **number != canary(salt, *at))
            .map(|(at, number)| (at, *number))
            .collect();
        let mut words = describe_line(&format!("{reader:?}, {entry:?}"), line);
        let _ = writeln!(words, "row buffer: {numbers} numbers, {} would do", ROW * line.kinds.len());
        let _ = writeln!(words, "due:   {expected:?}, rows {:?}", self.rows());
        let _ = writeln!(
            words,
            "given: {given:?}, numbers changed (place, number), counted from the buffer's start:"
        );
        for (at, number) in wrote.iter().take(200) {
            let _ = write!(words, " ({}, {number})", *at as i64 - GUARD as i64);
        }
        words.push('\n');
        Err(Box::new(words))
    }

    fn buffer_is_right(&self, salt: u32) -> bool {
        let rows = self.rows().as_flattened();
        let written = rows.len();
        let (front, rest) = self.buffer.split_at(GUARD);
        front.iter().enumerate().all(|(at, number)| *number == canary(salt, at))
            && rest.len() >= written
            && rest.iter().zip(rows).all(|(a, b)| a == b)
            && rest[written..]
                .iter()
                .enumerate()
                .all(|(at, number)| *number == canary(salt, GUARD + written + at))
    }

    pub fn is_block_attr_list(&mut self, line: Lent<'_>) -> Checked {
        let Some(given) = self.library.is_block_attr_list(line, line.kinds.len() % 2 == 0) else {
            return Ok(());
        };
        let refusal = model::line_refusal(line.kinds, line.text, line.pairs, MOST_TOKENS);
        let yes = refusal == 0 && rust_side::is_block_attr_list(line);
        let expected = Bool { refusal, yes: usize::from(yes) };
        self.count(refusal);
        self.tally.yes += u64::from(yes);
        if given == expected {
            return Ok(());
        }
        let mut words = describe_line("is_block_attr_list", line);
        let _ = writeln!(words, "due:   {expected:?}\ngiven: {given:?}");
        Err(Box::new(words))
    }

    /// Both entries of anchors, where the Rust is given another text of the same lengths.
    pub fn anchors_for(&mut self, line: Lent<'_>, rust_text: &[u8]) -> Checked {
        ANCHOR_ENTRIES.into_iter().try_for_each(|entry| self.anchor_for(entry, line, rust_text))
    }

    /// Both entries of anchors.
    pub fn anchors(&mut self, line: Lent<'_>) -> Checked {
        self.anchors_for(line, line.text)
    }

    /// An entry of anchors.
    pub fn anchor(&mut self, entry: AnchorEntry, line: Lent<'_>) -> Checked {
        self.anchor_for(entry, line, line.text)
    }

    fn anchor_for(&mut self, entry: AnchorEntry, line: Lent<'_>, rust_text: &[u8]) -> Checked {
        if !self.library.has_anchor(entry) {
            return Ok(());
        }
        let expected = expected_anchor(entry, line, rust_text)?;
        self.count(expected.refusal);
        self.tally.anchors[entry as usize][anchored(expected)] += 1;
        self.lent.set(line);
        self.null = !self.null;
        let given = self.library.anchor(entry, &mut self.lent, self.null);
        let altered = self.lent.lent() != line;
        if given == Some(expected) && !altered {
            return Ok(());
        }
        let mut words = describe_line(&format!("anchor, {entry:?}"), line);
        let _ = writeln!(words, "due:   {expected:?}\ngiven: {given:?}");
        if altered {
            words.push_str("what was lent is altered\n");
        }
        Err(Box::new(words))
    }

    /// `from_meta`; None is no subs attribute. `lent` is the text that such a call passes
    /// along, which nothing may look at.
    pub fn subs(&mut self, mode: Mode, set: Set, text: Option<&[u8]>, lent: &[u8]) -> Checked {
        let bytes = text.unwrap_or(lent);
        let Some(given) = self.library.from_meta(mode, set, text.is_some(), bytes) else {
            return Ok(());
        };
        let expected = expected_set(mode, set, text);
        self.count(expected.refusal);
        if given == expected {
            return Ok(());
        }
        Err(Box::new(describe_set(mode, set, text, expected, given)))
    }

    /// A move with a kind of 1 to 7, reached by the text that names it.
    pub fn move_by_text(&mut self, mode: Mode, set: Set, step: Move, kind: u8) -> Checked {
        let name = SUBS_NAMES[kind as usize - 1];
        let text = match step {
            Move::Insert => format!("+{name}"),
            Move::Remove => format!("-{name}"),
            Move::Prepend => format!("{name}+"),
        };
        if mode == Mode::Port {
            let moved = rust_side::set_move(set, step, kind);
            if moved != rust_side::from_meta(set, Some(&text)) {
                return Err(Box::new(format!("the Rust's own move and from_meta differ: {set:?} {text}\n")));
            }
        }
        self.subs(mode, set, Some(text.as_bytes()), b"")
    }

    /// A move itself, with any number for a kind and any set.
    pub fn set_move(&mut self, mode: Mode, set: Set, step: Move, kind: u8) -> Checked {
        let Some(given) = self.library.set_move(mode, set, step, kind) else {
            return Ok(());
        };
        let expected = expected_move(mode, set, step, kind);
        self.count(expected.refusal);
        let did = match expected.refusal {
            10 => 4,
            11 => 5,
            _ if !(1..=7).contains(&kind) => 3,
            _ if expected.set.places != set.places => 0,
            _ => 2 - usize::from(expected.set.flags != set.flags),
        };
        self.tally.moves[did] += 1;
        if given == expected {
            return Ok(());
        }
        Err(Box::new(format!(
            "{step:?} of kind {kind}, {mode:?} mode\nset:   {set:?}\ndue:   {expected:?}\ngiven: {given:?}\n"
        )))
    }

    /// Whether a set is held, and whether it is sound.
    pub fn set_refusal(&mut self, mode: Mode, set: Set) -> Checked {
        let Some(given) = self.library.set_refusal(mode, set) else { return Ok(()) };
        let expected = model::set_refusal(mode, set);
        self.count(expected);
        if given == expected {
            return Ok(());
        }
        Err(Box::new(format!("refusal of {set:?}, {mode:?} mode\ndue:   {expected}\ngiven: {given}\n")))
    }

    /// Each starting set is the Rust's.
    pub fn starts(&mut self) -> Checked {
        for (which, (name, start)) in STARTS.iter().enumerate() {
            let Some(given) = self.library.start(which) else { continue };
            let expected = rust_side::of_rust(start());
            self.count(0);
            if given != expected {
                return Err(Box::new(format!("{name}\ndue:   {expected:?}\ngiven: {given:?}\n")));
            }
        }
        Ok(())
    }

    /// The test of a flag, with any number for a kind and any set: the Rust looks at the flags
    /// alone, and no flag is that of a number which names no kind.
    pub fn contains(&mut self, set: Set, kind: u8) -> Checked {
        let Some(given) = self.library.contains(set, kind) else { return Ok(()) };
        let [expected, by_its_name] =
            if (1..=7).contains(&kind) { rust_side::contains(set.flags, kind) } else { [false; 2] };
        if expected != by_its_name {
            return Err(Box::new(format!("the Rust's two tests of kind {kind} differ on {set:?}\n")));
        }
        self.count(0);
        if given == u8::from(expected) {
            return Ok(());
        }
        Err(Box::new(format!("{set:?} contains kind {kind}\ndue:   {expected}\ngiven: {given}\n")))
    }
}

/// What is due of a line of an anchor: the Rust's answer, which the harness's own reading must have
/// too. The Rust may be given another text of the same lengths.
pub fn expected_anchor(entry: AnchorEntry, line: Lent<'_>, rust_text: &[u8]) -> Result<Anchor, Box<String>> {
    let refusal = model::line_refusal(line.kinds, line.text, line.pairs, MOST_TOKENS);
    if refusal != 0 {
        return Ok(Anchor::refused(refusal));
    }
    let own = anchor::read(entry, line);
    let of_rust = rust_side::anchor(entry, Lent { text: rust_text, ..line });
    if of_rust == Ok(own) {
        return Ok(own);
    }
    let mut words = describe_line(&format!("anchor, {entry:?}"), line);
    let _ = writeln!(words, "the Rust: {of_rust:?}\nthe harness's own reading: {own:?}");
    Err(Box::new(words))
}

/// What a move must answer: the Rust's move in port mode, the model's in sheet mode. A number
/// that names no kind is passed over.
pub fn expected_move(mode: Mode, set: Set, step: Move, kind: u8) -> SetAnswer {
    let refusal = model::set_refusal(mode, set);
    if refusal != 0 || !(1..=7).contains(&kind) {
        return SetAnswer { refusal, set };
    }
    let set = match mode {
        Mode::Sheet => model::sheet_move(set, step, kind),
        Mode::Port => rust_side::set_move(set, step, kind)
            .unwrap_or_else(|| panic!("the Rust's {step:?} of {kind} panicked on {set:?}")),
    };
    SetAnswer { refusal: 0, set }
}

pub const SUBS_NAMES: [&str; 7] =
    ["specialchars", "quotes", "attributes", "replacements", "macros", "post_replacements", "callouts"];

/// The Rust takes a str; a byte that is no ASCII stands in no name and is none of + - and comma.
fn for_rust(text: &[u8]) -> String {
    text.iter().map(|b| if b.is_ascii() { *b as char } else { 'Z' }).collect()
}

pub fn expected_set(mode: Mode, set: Set, text: Option<&[u8]>) -> SetAnswer {
    let refusal = model::subs_refusal(mode, set, text);
    if refusal != 0 {
        return SetAnswer { refusal, set };
    }
    let set = match mode {
        Mode::Sheet => model::sheet(set, text),
        Mode::Port => {
            let text = text.map(for_rust);
            rust_side::from_meta(set, text.as_deref()).unwrap_or_else(|| {
                panic!("the Rust's from_meta panicked on {set:?} {text:?}");
            })
        }
    };
    SetAnswer { refusal: 0, set }
}

fn describe_set(mode: Mode, set: Set, text: Option<&[u8]>, due: SetAnswer, given: SetAnswer) -> String {
    let text = match text {
        None => "no subs attribute".to_string(),
        Some(t) if t.len() > 400 => {
            format!("{} bytes, beginning {:?}", t.len(), String::from_utf8_lossy(&t[..400]))
        }
        Some(t) => format!("{} bytes {:?}", t.len(), String::from_utf8_lossy(t)),
    };
    format!("from_meta, {mode:?} mode\nset:   {set:?}\ntext:  {text}\ndue:   {due:?}\ngiven: {given:?}\n")
}

fn describe_line(entry: &str, line: Lent<'_>) -> String {
    let mut words = format!(
        "{entry}: {} tokens, {} bytes of text, {} numbers of pairs\n",
        line.kinds.len(),
        line.text.len(),
        line.pairs.len()
    );
    for (place, kind) in line.kinds.iter().enumerate() {
        let name = KINDS.get(*kind as usize).map_or("no kind".to_string(), |k| format!("{k:?}"));
        let pair = line.pairs.get(2 * place..2 * place + 2);
        let text = pair.and_then(|p| line.text.get(p[0] as usize..p[0] as usize + p[1] as usize));
        let shown = text.map_or("no text".to_string(), |t| {
            format!("{:?}", String::from_utf8_lossy(&t[..t.len().min(60)]))
        });
        let _ = writeln!(words, "  {place:4} {kind:3} {name:14} {shown} at {pair:?}");
    }
    words
}
