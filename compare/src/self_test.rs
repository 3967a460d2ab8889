//! The Rust side and the harness's own reading, without the library: the lines on the bench of
//! document 01, the quote marks, the commas taken back and the anchors of document 02, whitespace-only
//! runs against the real `Deq`, the number of held sets, and the harness's own table of refusals. It runs before
//! every comparison.

use crate::check::{Due, anchored, expected_anchor, expected_move, expected_set};
use crate::deq::Deq;
use crate::library::{Anchor, Library};
use crate::line::Line;
use crate::lines::{A, CLOSE, COMMA, DOT, LineBuf, SIGNIFICANT, SPACE, Tok};
use crate::model::{self, MOST_TOKENS, VIEWER_TOKENS, line_refusal, room_refusal};
use crate::parser::SourceLocation;
use crate::reading::commas_inside;
use crate::record;
use crate::room;
use crate::rust_side::{
    self, ANCHOR_ENTRIES, AnchorEntry, ENTRIES, Entry, KINDS, MARKED, MODES, MOVES, Mode, Move, NO_SUBS,
    NORMAL, Outcome, Row, STARTS, Set,
};
use crate::stand_in::{Bump, BumpString};
use crate::token::{Token, TokenIs, TokenKind};

struct Tests {
    run: u32,
    failed: u32,
}

impl Tests {
    fn holds(&mut self, what: &str, true_: bool) {
        self.run += 1;
        if !true_ {
            self.failed += 1;
            eprintln!("self-test: does not hold: {what}");
        }
    }

    fn same<T: PartialEq + std::fmt::Debug>(&mut self, what: &str, given: T, due: T) {
        self.run += 1;
        if given != due {
            self.failed += 1;
            eprintln!("self-test: {what}\n  due   {due:?}\n  given {given:?}");
        }
    }

    fn read(&mut self, entry: Entry, line: &str, rows: &[Row], consumed: usize) {
        let given = read(entry, &LineBuf::lex(line)).map(|(outcome, rows)| match outcome {
            Outcome::Read { consumed, .. } => (Ok(consumed), rows),
            other => (Err(other), rows),
        });
        self.same(&format!("{entry:?} {line}"), given, Ok((Ok(consumed), rows.to_vec())));
    }

    fn taken_back(&mut self, entry: Entry, line: &str, commas: usize) {
        let given = read(entry, &LineBuf::lex(line)).map(|(outcome, _)| match outcome {
            Outcome::Read { rejoined, .. } => Some(rejoined),
            _ => None,
        });
        self.same(&format!("commas taken back by {entry:?}, {line}"), given, Ok(Some(commas)));
    }

    /// The line of an anchor, on whose eight numbers the Rust and the harness's own reading agree.
    fn anchor(&mut self, entry: AnchorEntry, line: &LineBuf, due: [usize; 8]) {
        let given = expected_anchor(entry, line.lent(), &line.text).map(|anchor| anchor.numbers());
        let text = String::from_utf8_lossy(&line.text);
        self.same(&format!("{entry:?} anchor {text}"), given, Ok(due));
    }

    fn anchors(&mut self, line: &str, due: [usize; 8]) {
        ANCHOR_ENTRIES.into_iter().for_each(|entry| self.anchor(entry, &LineBuf::lex(line), due));
    }

    fn refused(&mut self, what: &str, entry: Entry, line: &str, due: Outcome) {
        self.same(what, read(entry, &LineBuf::lex(line)), Ok((due, vec![])));
    }
}

/// The Rust's outcome and the rows due, on which the Rust and the harness's own reading agree.
fn read(entry: Entry, line: &LineBuf) -> Result<(Outcome, Vec<Row>), Box<String>> {
    let mut due = Due::default();
    let outcome = due.read(entry, line.lent(), &line.text)?;
    Ok((outcome, due.rows().to_vec()))
}

/// Runs all; false if any fails.
pub fn run() -> bool {
    let mut t = Tests { run: 0, failed: 0 };
    for (number, kind) in KINDS.iter().enumerate() {
        t.same("a kind's number", *kind as usize, number);
    }
    whitespace_only(&mut t);
    lines_on_the_bench(&mut t);
    more_lines(&mut t);
    quote_marks(&mut t);
    commas_taken_back(&mut t);
    anchors(&mut t);
    anchors_of_other_tokens(&mut t);
    email_addresses(&mut t);
    sets(&mut t);
    refusals(&mut t);
    short_lines(&mut t);
    short_anchors(&mut t);
    recorded_answers(&mut t);
    println!("self-test, without the library: {} checks, {} failed", t.run, t.failed);
    t.failed == 0
}

/// The files of the programs `replay` and `room_extremes` are those that `record` makes.
fn recorded_answers(t: &mut Tests) {
    let made = record::recorded(&Library::listed());
    let same = |path, text: &str| std::fs::read(path).is_ok_and(|bytes| bytes == text.as_bytes());
    t.holds("the recorded calls are current (compare/record makes them)", same(record::STDIN, &made.calls));
    t.holds(
        "the recorded answers are current (compare/record makes them)",
        same(record::STDOUT, &made.answers),
    );
    t.holds(
        "the answers on the room at the extremes are current (compare/record makes them)",
        same(room::STDOUT, &room::answers()),
    );
}

/// The steps of `trim`, on a real `Deq`.
fn whitespace_only(t: &mut Tests) {
    let bump = Bump::default();
    for n in 0..8 {
        let mut tokens = Deq::with_capacity(n, &bump);
        for place in 0..n {
            let loc = SourceLocation::of_token(place);
            tokens.push(Token::new(TokenKind::Whitespace, loc, BumpString::lent(" ", &bump)));
        }
        let mut taken = 0;
        while tokens.first().kind(TokenKind::Whitespace) {
            tokens.remove_first();
            taken += 1;
        }
        t.same("taken from the front of a whitespace-only Deq", taken, n);
        t.holds("then nothing is left", tokens.is_empty() && tokens.len() == 0);
        t.holds("then there is no first", tokens.first().is_none() && tokens.get(0).is_none());
        t.holds("then there is no last", tokens.last().is_none());
        t.holds("then nothing is popped", tokens.pop().is_none() && tokens.len() == 0);
        t.same("then nothing is iterated over", tokens.iter().count(), 0);
        t.same("then it gives no token", tokens.into_iter().count(), 0);
    }
    for entry in [Entry::Block, Entry::BlockMacro, Entry::Inline] {
        t.read(entry, " ]", &[[1, 0, 0, 0, 0, 0]], 2);
        t.read(entry, " , ]", &[[1, 0, 0, 0, 0, 0], [1, 0, 0, 0, 0, 0]], 4);
        t.read(entry, " {x} ]", &[[1, 0, 0, 0, 0, 0]], 4);
        t.read(entry, "k= ]", &[[3, 0, 1, 0, 0, 0]], 4);
        t.read(entry, "k=\" \"]", &[[3, 0, 1, 3, 1, 1]], 6);
        t.read(entry, "\" \"]", &[[2, 1, 1, 0, 0, 1]], 4);
        t.read(entry, "role=\" \"]", &[], 6);
        t.read(entry, "opts=\" , \"]", &[], 8);
        t.read(entry, "id=\" \"]", &[[4, 3, 1, 0, 0, 1]], 6);
        t.read(entry, "id= ]", &[[7, 0, 3, 0, 0, 0]], 4);
    }
    t.read(Entry::Link, " ]", &[[2, 0, 1, 0, 0, 0]], 2);
}

/// Document 01, "Lines on the bench".
fn lines_on_the_bench(t: &mut Tests) {
    let block = Entry::Block;
    t.read(block, "]", &[], 1);
    t.read(block, "a,b]", &[[2, 0, 1, 0, 0, 0], [2, 2, 1, 0, 0, 0]], 4);
    t.read(block, "a,]", &[[2, 0, 1, 0, 0, 0], [1, 0, 0, 0, 0, 0]], 3);
    t.read(block, "k=\"a,b\",c]", &[[3, 0, 1, 3, 3, 1], [2, 8, 1, 0, 0, 0]], 10);
    t.read(block, "\",'\",']", &[[2, 1, 2, 0, 0, 1], [2, 5, 1, 0, 0, 0]], 7);
    t.read(block, "a==b=c]", &[[3, 0, 1, 2, 3, 0]], 6);
    t.read(block, ".x#y%]", &[[5, 1, 1, 0, 0, 0], [4, 3, 1, 0, 0, 0], [7, 4, 1, 0, 0, 0]], 6);
    t.read(block, "#%o]", &[[4, 0, 0, 0, 0, 0], [6, 2, 1, 0, 0, 0]], 4);
    t.read(block, "a...b.c]", &[[2, 0, 1, 0, 0, 0], [7, 1, 2, 0, 0, 0]], 6);
    let subs = |mode, set, text: &str| {
        let answer = expected_set(mode, set, Some(text.as_bytes()));
        (answer.refusal, answer.set.places, answer.set.flags)
    };
    t.same("+callouts", subs(Mode::Port, NORMAL, "+callouts"), (0, [1, 2, 3, 4, 5, 6, 0], 127));
    t.same("+callouts, sheet", subs(Mode::Sheet, NORMAL, "+callouts"), (0, [1, 2, 3, 4, 5, 6, 7], 127));
    t.same("verbatim", subs(Mode::Port, NORMAL, "verbatim"), (0, [1, 4, 0, 0, 0, 0, 0], 9));
    t.same("verbatim, sheet", subs(Mode::Sheet, NORMAL, "verbatim"), (0, [1, 7, 0, 0, 0, 0, 0], 65));
    t.same("quotes, macros", subs(Mode::Port, NORMAL, "quotes, macros"), (0, [2, 0, 0, 0, 0, 0, 0], 2));
    t.same(
        "quotes, macros, sheet",
        subs(Mode::Sheet, NORMAL, "quotes, macros"),
        (0, [2, 5, 0, 0, 0, 0, 0], 18),
    );
    t.read(Entry::Inline, "a\\]b]c", &[[2, 0, 4, 0, 0, 0]], 5);
    t.read(block, "id=\"\"]", &[[7, 0, 3, 0, 0, 0]], 5);
    t.same("a] with room for 12", room_refusal(2, 12), 0);
    t.same("a] with room for 11", room_refusal(2, 11), 7);
    t.same("a] with room for 10", room_refusal(2, 10), 7);
    let mut line = LineBuf::default();
    for _ in 0..4095 {
        line.push_all(&[(TokenKind::Word, "a")]);
    }
    line.push_all(&[(TokenKind::CloseBracket, "]")]);
    t.same("4,096 tokens", line_refusal(&line.kinds, &line.text, &line.pairs, MOST_TOKENS), 0);
    t.same(
        "4,096 tokens read",
        read(block, &line),
        Ok((Outcome::Read { consumed: 4096, rejoined: 0 }, vec![[2, 0, 4095, 0, 0, 0]])),
    );
    line.push_all(&[(TokenKind::CloseBracket, "]")]);
    t.same("4,097 tokens", line_refusal(&line.kinds, &line.text, &line.pairs, MOST_TOKENS), 2);
}

/// Other sentences of document 01, one line each.
fn more_lines(t: &mut Tests) {
    let (block, inline, link) = (Entry::Block, Entry::Inline, Entry::Link);
    t.read(block, "]a", &[], 1);
    t.read(link, "]a", &[], 1);
    t.read(link, "a,b]c", &[[2, 0, 3, 0, 0, 0]], 4);
    t.read(link, "\"a\"]", &[[2, 1, 1, 0, 0, 1]], 4);
    t.read(link, "\"\"]", &[[2, 0, 0, 0, 0, 1]], 3);
    t.read(link, "a,k=v]", &[[2, 0, 1, 0, 0, 0], [3, 2, 1, 4, 1, 0]], 6);
    t.read(link, "{x} a ]", &[[2, 1, 3, 0, 0, 0]], 5);
    t.read(block, "a {x}b]", &[[2, 0, 4, 0, 0, 0]], 5);
    t.read(block, "{x}a=b{x}c]", &[[3, 1, 1, 3, 3, 0]], 7);
    t.read(block, "id=a,#b]", &[[4, 2, 1, 0, 0, 0], [7, 4, 4, 0, 0, 0]], 7);
    t.read(block, "#a,id=b]", &[[4, 1, 1, 0, 0, 0], [7, 5, 4, 0, 0, 0]], 7);
    t.read(block, "subs=a,cols=b]", &[[8, 0, 1, 2, 1, 0], [8, 4, 1, 6, 1, 0]], 8);
    t.read(block, "role=a b]", &[[5, 2, 1, 0, 0, 0], [5, 4, 1, 0, 0, 0]], 6);
    t.read(block, "opts=\"a,b\"]", &[[6, 3, 1, 0, 0, 0], [6, 5, 1, 0, 0, 0]], 8);
    t.read(block, "a.b]", &[[2, 0, 1, 0, 0, 0], [5, 2, 1, 0, 0, 0]], 4);
    t.read(Entry::BlockMacro, "a.b]", &[[2, 0, 3, 0, 0, 0]], 4);
    t.refused("no closing bracket", block, "a,b", Outcome::Panicked);
    t.refused("no closing bracket", inline, "a\\]", Outcome::Panicked);
    t.refused("closed by a word", link, "a", Outcome::OtherClosing(1));
    t.refused("closed by a word", link, "a[b]c", Outcome::OtherClosing(5));
    // "Empty" is said of tokens: a zero-length Word is a token.
    let zero = LineBuf::of(&[(TokenKind::Hash, "#"), (TokenKind::Word, ""), (TokenKind::CloseBracket, "]")]);
    t.same(
        "# and a zero-length Word",
        read(block, &zero),
        Ok((Outcome::Read { consumed: 3, rejoined: 0 }, vec![[4, 1, 1, 0, 0, 0]])),
    );
}

/// Document 02, Slip 5: one for each stretch that a second quote rejoins.
fn commas_taken_back(t: &mut Tests) {
    for entry in [Entry::Block, Entry::BlockMacro, Entry::Inline] {
        t.taken_back(entry, "]", 0);
        t.taken_back(entry, "a,b]", 0);
        t.taken_back(entry, "\"a,b]", 0);
        t.taken_back(entry, "k=\"a,b\",c]", 1);
        t.taken_back(entry, "\",,,\",a]", 3);
        t.taken_back(entry, "\",a,',b,',\",c]", 5);
        // Both commas are inside a pair; the pairs cross, and one comma divides.
        t.taken_back(entry, "\",'\",']", 1);
        t.taken_back(entry, "',\"',\"]", 1);
        t.taken_back(entry, "name=O'Brien,edition=3,second=O'Neill]", 2);
        t.taken_back(entry, "title=\"Glucose,edition=3,note=\"see below\",width=1450]", 2);
    }
    // Counted commas alone: the count ends at the first bracket.
    t.taken_back(Entry::Block, "a]b,c]", 0);
    t.taken_back(Entry::Block, "a]\",\",c]", 0);
    t.taken_back(Entry::Link, "]\",\"", 0);
    t.taken_back(Entry::Link, "\"a,b\",k=v]", 1);
    t.taken_back(Entry::Link, "\"a,b\"]", 0);
    for line in ["\",\",a", "\",\",',"] {
        t.refused("refused after delimiting", Entry::Block, line, Outcome::Panicked);
    }
    let inside = |line: &str| commas_inside(LineBuf::lex(line).lent());
    t.same("commas inside a pair", [inside("\",'\",']"), inside("\",\",'a,']"), inside("\",a]")], [2, 2, 0]);
}

const NO_ANCHOR: [usize; 8] = [0; 8];
const OUT: [usize; 8] = [12, 0, 0, 0, 0, 0, 0, 0];

/// Document 02, Slip 1.
fn anchors(t: &mut Tests) {
    let (block, inline) = (AnchorEntry::Block, AnchorEntry::Inline);
    for line in ["9]]", "\"a]]", "'a]]", " a]]", "]]", ",a]]", ",", "]", "9", " "] {
        t.anchors(line, NO_ANCHOR);
    }
    // an id alone: up to two tokens are dropped
    t.anchors("a]]", [0, 1, 0, 1, 0, 0, 3, 0]);
    t.anchors("a]", [0, 1, 0, 1, 0, 0, 2, 0]);
    t.anchors("a]b c", [0, 1, 0, 1, 0, 0, 3, 0]);
    t.anchors("a]⟨Word b⟩⟨Word b⟩", [0, 1, 0, 1, 0, 0, 3, 0]);
    t.anchors("a.b c]]", [0, 1, 0, 5, 0, 0, 7, 0]);
    t.anchors("a\\]]", [0, 1, 0, 2, 0, 0, 4, 0]);
    t.anchors("#]]", [0, 1, 0, 1, 0, 0, 3, 0]);
    t.anchors("...]]", [0, 1, 0, 1, 0, 0, 3, 0]);
    // and a reference text
    t.anchors("a,b]]", [0, 1, 0, 1, 2, 1, 5, 0]);
    t.anchors("a, b]]", [0, 1, 0, 1, 2, 2, 6, 1]);
    t.anchors("a, ]]", [0, 1, 0, 1, 2, 1, 5, 1]);
    t.anchors("a,]]", [0, 1, 0, 1, 0, 0, 4, 0]);
    t.anchors("a,b,c d]]", [0, 1, 0, 1, 2, 5, 9, 0]);
    t.anchors("a,\"]]", [0, 1, 0, 1, 2, 1, 5, 0]);
    t.anchors("a,b\\]]", [0, 1, 0, 1, 2, 2, 6, 0]);
    t.anchor(inline, &LineBuf::lex("a,b]] c"), [0, 1, 0, 1, 2, 1, 5, 0]);
    t.anchor(block, &LineBuf::lex("a,b]] c"), OUT);
    t.anchor(block, &LineBuf::lex("a,b]c]]"), [0, 1, 0, 1, 2, 3, 7, 0]);
    t.anchor(inline, &LineBuf::lex("a,b]c]]"), OUT);
    t.anchor(block, &LineBuf::lex("a,b]\\]]"), [0, 1, 0, 1, 2, 3, 7, 0]);
    t.anchor(inline, &LineBuf::lex("a,b]\\]]"), OUT);
    t.anchor(block, &LineBuf::lex("a,b\\]c]]"), [0, 1, 0, 1, 2, 4, 8, 0]);
    t.anchor(inline, &LineBuf::lex("a,b\\]c]]"), OUT);
    t.anchor(block, &LineBuf::lex("a,]]]"), [0, 1, 0, 1, 2, 1, 5, 0]);
    t.anchor(inline, &LineBuf::lex("a,]]]"), [0, 1, 0, 1, 0, 0, 4, 0]);
    // it runs out, or does not close as said
    for line in ["a", "a b", "a,", "a,b", "a,]", "a,b]", "a, ]", "a,b]c", "{x}"] {
        t.anchors(line, OUT);
    }
}

/// Tokens that a line of plain text does not show: AttrRef, those of no bytes, Discard and email
/// addresses.
fn anchors_of_other_tokens(t: &mut Tests) {
    use TokenKind::{AttrRef, Comma, Discard, Whitespace, Word};
    t.anchors("{x}]]", [0, 1, 0, 1, 0, 0, 3, 0]);
    t.anchors("a{x}]]", [0, 1, 0, 2, 0, 0, 4, 0]);
    t.anchors("{x}a,{x}b{x}]]", [0, 1, 0, 2, 3, 3, 8, 0]);
    t.anchors("a,{x} b]]", [0, 1, 0, 1, 2, 3, 7, 0]);
    t.anchors("a, {x}]]", [0, 1, 0, 1, 2, 2, 6, 1]);
    t.anchors("a,⟨Discard  ⟩b]]", [0, 1, 0, 1, 2, 2, 6, 1]);
    t.anchors("a,⟨Whitespace  ⟩⟨Whitespace  ⟩]]", [0, 1, 0, 1, 2, 2, 6, 1]);
    t.anchors("a,b⟨Discard  ⟩]]", [0, 1, 0, 1, 2, 2, 6, 0]);
    // the Rust makes one token of the address: see `email_addresses`
    t.anchors("a,b ⟨Word u⟩.⟨Word v⟩⟨MaybeEmail @ex.com⟩ c]]", [0, 1, 0, 1, 2, 8, 12, 0]);
    t.anchors("a, ⟨Word u⟩⟨MaybeEmail @ex.com⟩]]", [0, 1, 0, 1, 2, 3, 7, 1]);
    t.anchors("a,⟨Word u⟩_⟨MaybeEmail @ex.com⟩]]", [0, 1, 0, 1, 2, 3, 7, 0]);
    t.anchors("a,⟨Word u⟩⟨MaybeEmail no⟩]]", [0, 1, 0, 1, 2, 2, 6, 0]);
    let lines = [
        (vec![(AttrRef, ""), CLOSE, CLOSE], OUT),
        (vec![(Word, ""), CLOSE, CLOSE], OUT),
        (vec![(Word, ""), (AttrRef, ""), COMMA, (Word, "b"), CLOSE, CLOSE], OUT),
        (vec![(Word, ""), (AttrRef, "{x}"), CLOSE, CLOSE], [0, 1, 0, 2, 0, 0, 4, 0]),
        (vec![(Word, "a"), (Comma, ""), (Word, ""), CLOSE, CLOSE], [0, 1, 0, 1, 2, 1, 5, 0]),
        (vec![(Word, "a"), COMMA, (Whitespace, ""), CLOSE, CLOSE], [0, 1, 0, 1, 2, 1, 5, 1]),
        (vec![(Word, "a"), COMMA, (Discard, ""), CLOSE, CLOSE], [0, 1, 0, 1, 2, 1, 5, 1]),
        (vec![(Comma, ""), CLOSE], NO_ANCHOR),
    ];
    for (line, due) in lines {
        ANCHOR_ENTRIES.into_iter().for_each(|entry| t.anchor(entry, &LineBuf::of(&line), due));
    }
    // the checks of a line come first
    let bad_kind = LineBuf { kinds: vec![Comma as u8, 51], text: b",,".to_vec(), pairs: vec![0, 1, 1, 1] };
    let bad_pair = LineBuf { pairs: vec![0, 1, 1, 2], ..LineBuf::lex(",,") };
    for entry in ANCHOR_ENTRIES {
        t.anchor(entry, &LineBuf::default(), [1, 0, 0, 0, 0, 0, 0, 0]);
        t.anchor(entry, &bad_kind, [5, 0, 0, 0, 0, 0, 0, 0]);
        t.anchor(entry, &bad_pair, [6, 0, 0, 0, 0, 0, 0, 0]);
    }
}

/// How many tokens the Rust leaves of some that it pushes on a line.
fn pushed(tokens: &[Tok]) -> usize {
    let bump = Bump::default();
    let mut line = Line::empty(&bump);
    for (place, (kind, text)) in tokens.iter().enumerate() {
        line.push(Token::new(*kind, SourceLocation::of_token(place), BumpString::lent(text, &bump)));
    }
    line.num_tokens()
}

/// `Line::push` makes one token of those of an email address, and leaves others.
fn email_addresses(t: &mut Tests) {
    use TokenKind::{MaybeEmail, Word};
    let end = (MaybeEmail, "@ex.com");
    t.same("tokens left of an address", pushed(&[SPACE, (Word, "u"), DOT, (Word, "v"), end]), 2);
    t.same("tokens left of an address behind a Discard", pushed(&[(TokenKind::Discard, " "), A, end]), 2);
    t.same("tokens left of what is no address", pushed(&[SPACE, A, (MaybeEmail, "no")]), 3);
    t.same("tokens left of an address alone", pushed(&[A, SPACE, (MaybeEmail, "u@ex.com")]), 3);
}

/// Document 02, Slip 2: the sixth number of a row.
fn quote_marks(t: &mut Tests) {
    let (block, link) = (Entry::Block, Entry::Link);
    for entry in [block, Entry::BlockMacro, Entry::Inline] {
        t.read(entry, "\"a\",b,'c']", &[[2, 1, 1, 0, 0, 1], [2, 4, 1, 0, 0, 0], [2, 7, 1, 0, 0, 2]], 10);
        t.read(entry, "k=\"v\"]", &[[3, 0, 1, 3, 1, 1]], 6);
        t.read(entry, "k='v']", &[[3, 0, 1, 3, 1, 2]], 6);
        t.read(entry, "subs=\"a\"]", &[[8, 0, 1, 3, 1, 1]], 6);
        t.read(entry, "cols='1,2']", &[[8, 0, 1, 3, 3, 2]], 8);
        // the id of a name went through unquoting
        t.read(entry, "id=\"x\"]", &[[4, 3, 1, 0, 0, 1]], 6);
        t.read(entry, "id='x']", &[[4, 3, 1, 0, 0, 2]], 6);
        t.read(entry, "id=x]", &[[4, 2, 1, 0, 0, 0]], 4);
        // roles, options and diagnostics have no mark
        t.read(entry, "role=\"a\"]", &[[5, 3, 1, 0, 0, 0]], 6);
        t.read(entry, "opts='a,b']", &[[6, 3, 1, 0, 0, 0], [6, 5, 1, 0, 0, 0]], 8);
        t.read(entry, "id='']", &[[7, 0, 3, 0, 0, 0]], 5);
        t.read(entry, "id=a,id=\"b\"]", &[[4, 2, 1, 0, 0, 0], [7, 7, 4, 0, 0, 0]], 10);
        // nothing between the quotes
        t.read(entry, "\"\"]", &[[2, 0, 0, 0, 0, 1]], 3);
        t.read(entry, "'{x}']", &[[2, 0, 0, 0, 0, 2]], 4);
        t.read(entry, "k=\"\"]", &[[3, 0, 1, 0, 0, 1]], 5);
        t.read(entry, "k='{x}']", &[[3, 0, 1, 0, 0, 2]], 6);
        // the token beside a run need not be its quote
        t.read(entry, "\"{x}a\"]", &[[2, 2, 1, 0, 0, 1]], 5);
        t.read(entry, "{x}'a{x}'{x}]", &[[2, 2, 1, 0, 0, 2]], 7);
        t.read(entry, "k={x}\"a\"]", &[[3, 0, 1, 4, 1, 1]], 7);
        // one quote, or two that are no pair
        t.read(entry, "\"]", &[[2, 0, 1, 0, 0, 0]], 2);
        t.read(entry, "\"a]", &[[2, 0, 2, 0, 0, 0]], 3);
        t.read(entry, "\"a']", &[[2, 0, 3, 0, 0, 0]], 4);
        t.read(entry, "k=\"v']", &[[3, 0, 1, 2, 3, 0]], 6);
        // behind blanks, of which one is dropped before a value; one pair is taken off
        t.read(entry, " \"a\" ]", &[[2, 2, 1, 0, 0, 1]], 6);
        t.read(entry, "k= 'v']", &[[3, 0, 1, 4, 1, 2]], 7);
        t.read(entry, "k= ⟨Whitespace  ⟩'v']", &[[3, 0, 1, 3, 4, 0]], 8);
        t.read(entry, "''a'']", &[[2, 1, 3, 0, 0, 2]], 6);
        t.read(entry, "'\"a\"']", &[[2, 1, 3, 0, 0, 2]], 6);
        t.read(entry, "\"a\".b]", &[[2, 0, 5, 0, 0, 0]], 6);
    }
    // shorthand does not go through unquoting; a positional that is cut does, and nothing is taken
    t.read(block, "#x]", &[[4, 1, 1, 0, 0, 0]], 3);
    t.read(block, "#'x']", &[[4, 1, 3, 0, 0, 0]], 5);
    t.read(block, "a.b]", &[[2, 0, 1, 0, 0, 0], [5, 2, 1, 0, 0, 0]], 4);
    t.read(block, "a#\"b\"]", &[[2, 0, 1, 0, 0, 0], [4, 2, 3, 0, 0, 0]], 6);
    // a link's text is not trimmed
    t.read(link, "\"text\"]", &[[2, 1, 1, 0, 0, 1]], 4);
    t.read(link, "'text']", &[[2, 1, 1, 0, 0, 2]], 4);
    t.read(link, "text]", &[[2, 0, 1, 0, 0, 0]], 2);
    t.read(link, "\"text]", &[[2, 0, 2, 0, 0, 0]], 3);
    t.read(link, "'']", &[[2, 0, 0, 0, 0, 2]], 3);
    t.read(link, " \"a\"]", &[[2, 0, 4, 0, 0, 0]], 5);
    t.read(link, "{x}\"{x}a\"{x}]", &[[2, 3, 1, 0, 0, 1]], 7);
    t.read(link, "\"a\",k='v']", &[[2, 1, 1, 0, 0, 1], [3, 4, 1, 7, 1, 2]], 10);
}

fn sets(t: &mut Tests) {
    let sets = model::held_sets();
    t.same("held sets", sets.len(), 27_399);
    t.same("sound sets", sets.iter().filter(|set| model::sound(**set)).count(), 13_700);
    t.holds("each is held", sets.iter().all(|set| model::held(*set)));
    let mut distinct = std::collections::HashSet::new();
    t.holds("none stands twice", sets.iter().all(|set| distinct.insert(*set)));
    let kept = sets.iter().all(|set| {
        MOVES
            .iter()
            .all(|step| (1..=7).all(|kind| rust_side::set_move(*set, *step, kind).is_some_and(model::held)))
    });
    t.holds("the Rust's moves keep a set held", kept);
    for set in [
        Set { places: [0, 1, 0, 0, 0, 0, 0], flags: 1 },
        Set { places: [1, 1, 0, 0, 0, 0, 0], flags: 1 },
        Set { places: [1, 0, 0, 0, 0, 0, 0], flags: 0 },
        Set { places: [8, 0, 0, 0, 0, 0, 0], flags: 0 },
        Set { places: [1, 0, 0, 0, 0, 0, 0], flags: 7 },
        Set { places: [1, 0, 0, 0, 0, 0, 0], flags: 129 },
    ] {
        t.holds("not held", !model::held(set));
        t.same(
            "refused and given back",
            expected_set(Mode::Port, set, None),
            crate::library::SetAnswer { refusal: 10, set },
        );
    }
    let flagged = Set { flags: 127, ..NORMAL };
    t.holds("held and not sound", model::held(flagged) && !model::sound(flagged));
    t.same("sheet mode refuses it", expected_set(Mode::Sheet, flagged, Some(b"none")).refusal, 11);
    t.same("too long comes first", expected_set(Mode::Sheet, flagged, Some(&[b'a'; 65_536])).refusal, 9);
    t.same("no bytes give the empty set", expected_set(Mode::Port, NORMAL, Some(b"")).set, NO_SUBS);
    t.same("no attribute gives the set", expected_set(Mode::Port, NORMAL, None).set, NORMAL);
    moves(t);
}

/// What the moves must answer, where document 01 says it in words.
fn moves(t: &mut Tests) {
    let moved = |mode, set, step, kind| {
        let answer = expected_move(mode, set, step, kind);
        (answer.refusal, answer.set.places, answer.set.flags)
    };
    let (full, flagged) = ([1, 2, 3, 4, 5, 6, 0], Set { flags: 127, ..NORMAL });
    t.same("with six filled the flag alone", moved(Mode::Port, NORMAL, Move::Insert, 7), (0, full, 127));
    let seventh = [1, 2, 3, 4, 5, 6, 7];
    t.same("the seventh place", moved(Mode::Sheet, NORMAL, Move::Insert, 7), (0, seventh, 127));
    t.same("the flag is set", moved(Mode::Port, flagged, Move::Insert, 7), (0, full, 127));
    t.same("held, not sound", moved(Mode::Sheet, flagged, Move::Insert, 7), (11, full, 127));
    t.same("remove clears the flag", moved(Mode::Port, flagged, Move::Remove, 7), (0, full, 63));
    for mode in MODES {
        let gap = [1, 2, 4, 5, 6, 0, 0];
        t.same("remove closes the gap", moved(mode, NORMAL, Move::Remove, 3), (0, gap, 59));
        let first = [3, 1, 2, 4, 5, 6, 0];
        t.same("prepend moves", moved(mode, NORMAL, Move::Prepend, 3), (0, first, 63));
        let all = [7, 1, 2, 3, 4, 5, 6];
        t.same("prepend puts", moved(mode, NORMAL, Move::Prepend, 7), (0, all, 127));
        for step in MOVES {
            for kind in [0, 8, 255] {
                t.same("no kind is named", moved(mode, NORMAL, step, kind), (0, full, 63));
                t.same("not held comes first", moved(mode, Set { flags: 0, ..NORMAL }, step, kind).0, 10);
            }
        }
        for step in MOVES {
            let kept =
                model::held_sets().into_iter().filter(|set| model::set_refusal(mode, *set) == 0).all(|set| {
                    (1..=7)
                        .all(|kind| model::set_refusal(mode, expected_move(mode, set, step, kind).set) == 0)
                });
            t.holds("a move keeps a set one that its mode takes", kept);
        }
    }
    let starts = STARTS.map(|(name, start)| (name, rust_side::of_rust(start())));
    let [(_, none), (_, normal), (_, verbatim), (_, attr_value), (_, special), (_, all)] = starts;
    t.same("none and normal", (none, normal), (NO_SUBS, NORMAL));
    let by_text = |mode, text: &str| expected_set(mode, NO_SUBS, Some(text.as_bytes())).set;
    // the Rust's own verbatim() is not what its text `verbatim` gives
    t.same("verbatim()", (verbatim.places, verbatim.flags), ([1, 7, 0, 0, 0, 0, 0], 65));
    t.holds("the text verbatim, port mode", by_text(Mode::Port, "verbatim") != verbatim);
    t.same("the text verbatim, sheet mode", by_text(Mode::Sheet, "verbatim"), verbatim);
    t.same("attr_value", attr_value, by_text(Mode::Port, "specialchars,quotes,attributes,replacements"));
    t.same("only_special_chars", special, by_text(Mode::Port, "specialchars"));
    t.same("all", all, by_text(Mode::Sheet, "normal,callouts"));
    t.holds("each starting set is sound", starts.iter().all(|(_, set)| model::sound(*set)));
}

fn refusals(t: &mut Tests) {
    let word = TokenKind::Word as u8;
    let table: [(&str, usize, &[u8], usize, &[u32]); 17] = [
        ("no tokens", 1, &[], 0, &[]),
        ("no tokens, text too long", 1, &[], 65_536, &[1]),
        ("too many tokens, a bad kind", 2, &[255; 4097], 0, &[]),
        ("text too long, pairs missing", 3, &[word], 65_536, &[]),
        ("longest text", 0, &[word], 65_535, &[0, 65_535]),
        ("one number short", 4, &[word], 1, &[0]),
        ("one number more, a bad kind", 4, &[51], 1, &[0, 1, 1]),
        ("kind 51, a bad pair", 5, &[51], 1, &[0, 2]),
        ("kind 255", 5, &[word, 255], 1, &[0, 1, 1, 0]),
        ("past the text", 6, &[word], 1, &[0, 2]),
        ("past the text, empty", 6, &[word], 1, &[2, 0]),
        ("at the end, empty", 0, &[word], 1, &[1, 0]),
        ("overlapping", 6, &[word, word], 3, &[0, 2, 1, 1]),
        ("unsorted", 6, &[word, word], 3, &[1, 1, 0, 1]),
        ("a gap", 0, &[word, word], 3, &[0, 1, 2, 1]),
        ("a sum of 2^32", 6, &[word], 3, &[u32::MAX, 1]),
        ("a sum over 2^32", 6, &[word, word], 3, &[0, 1, 2, u32::MAX]),
    ];
    for (what, number, kinds, bytes, pairs) in table {
        t.same(what, line_refusal(kinds, &vec![b'a'; bytes], pairs, MOST_TOKENS), number);
    }
    // a lower limit: document 02's viewer, and none at all
    let of_words = |tokens: usize, most| line_refusal(&vec![word; tokens], b"", &vec![0; 2 * tokens], most);
    t.same("256 tokens for the viewer", of_words(256, VIEWER_TOKENS), 0);
    t.same("257 tokens for the viewer", of_words(257, VIEWER_TOKENS), 2);
    t.same("257 bad kinds for the viewer", line_refusal(&[51; 257], b"", &[], VIEWER_TOKENS), 2);
    t.same("256 bad kinds for the viewer", line_refusal(&[51; 256], b"", &[0; 512], VIEWER_TOKENS), 5);
    t.same("no tokens for the viewer", of_words(0, VIEWER_TOKENS), 1);
    t.same("a token where none is read", of_words(1, 0), 2);
    t.same("no tokens where none is read", of_words(0, 0), 1);
}

/// Every line of up to `longest` of the tokens.
fn each_short_line(tokens: &[Tok], longest: u32, mut f: impl FnMut(&LineBuf)) {
    for len in 1..=longest {
        for number in 0..tokens.len().pow(len) {
            let mut line = LineBuf::default();
            let mut rest = number;
            for _ in 0..len {
                line.push_all(&tokens[rest % tokens.len()..=rest % tokens.len()]);
                rest /= tokens.len();
            }
            f(&line);
        }
    }
}

/// Every line of up to three significant tokens: the harness's own reading gives what the Rust
/// gives, this lies inside the line, and a panic arises only where a token or a closing bracket is
/// missing.
fn short_lines(t: &mut Tests) {
    let mut due = Due::default();
    let mut inside = true;
    let mut unlike = 0u64;
    let mut outcomes = [0u64; 3];
    each_short_line(&SIGNIFICANT, 3, |line| {
        let len = line.kinds.len();
        for entry in ENTRIES {
            match due.read(entry, line.lent(), &line.text) {
                Ok(Outcome::Read { consumed, .. }) => {
                    outcomes[0] += 1;
                    let within = |place: u32, count: u32| {
                        (place, count) == (0, 0) || count > 0 && (place + count) < consumed as u32
                    };
                    inside &= consumed <= len && due.rows().len() <= len;
                    inside &= due.rows().iter().all(|&[tag, place, count, value, length, mark]| {
                        let unused = (value, length) == (0, 0);
                        mark <= if MARKED.contains(&tag) { 2 } else { 0 }
                            && match tag {
                                1 => (place, count) == (0, 0) && unused,
                                3 | 8 => count > 0 && within(place, count) && within(value, length),
                                7 => (1..=4).contains(&count) && (place as usize) < consumed && unused,
                                _ => within(place, count) && unused,
                            }
                    });
                }
                Ok(Outcome::OtherClosing(_)) => outcomes[1] += 1,
                Ok(Outcome::Panicked) => outcomes[2] += 1,
                Err(words) => {
                    if unlike == 0 {
                        eprintln!("self-test: {words}");
                    }
                    unlike += 1;
                }
            }
        }
    });
    t.same("short lines on which the Rust and the harness's own reading differ", unlike, 0);
    t.holds("rows of short lines lie inside them, with a mark where there can be one", inside);
    t.holds("short lines have every outcome", outcomes.iter().all(|n| *n > 1000));
}

/// Every line of an anchor of up to six of six tokens: the harness's own reading gives what the Rust gives,
/// and its runs end at the Comma and at the brackets.
fn short_anchors(t: &mut Tests) {
    let mut beside = true;
    let mut unlike = 0u64;
    let mut outcomes = [0u64; 5];
    let tokens = [A, (TokenKind::AttrRef, ""), SPACE, (TokenKind::Discard, ""), CLOSE, COMMA];
    each_short_line(&tokens, 6, |line| {
        for entry in ANCHOR_ENTRIES {
            let found = match expected_anchor(entry, line.lent(), &line.text) {
                Ok(found) => found,
                Err(words) => {
                    if unlike == 0 {
                        eprintln!("self-test: {words}");
                    }
                    unlike += 1;
                    continue;
                }
            };
            outcomes[anchored(found)] += 1;
            let [refusal, anchor, place, count, text, length, consumed, discard] = found.numbers();
            let is = |place: usize, kind| line.kinds[place] == kind as u8;
            beside &= if refusal != 0 || anchor == 0 {
                found == Anchor { refusal, ..Anchor::default() }
            } else if length == 0 {
                (place, text, discard) == (0, 0, 0) && consumed <= line.kinds.len() && count < consumed
            } else {
                let closed =
                    is(consumed - 1, TokenKind::CloseBracket) && is(consumed - 2, TokenKind::CloseBracket);
                place == 0
                    && is(count, TokenKind::Comma)
                    && text == count + 1
                    && text + length + 2 == consumed
                    && closed
            };
        }
    });
    t.same("short lines of anchors on which the Rust and the harness's own reading differ", unlike, 0);
    t.holds("the runs of a short anchor stand beside its Comma and its brackets", beside);
    t.holds("short lines of anchors have every outcome", outcomes.iter().all(|n| *n > 50));
}
