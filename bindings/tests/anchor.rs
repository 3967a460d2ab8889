//! The two readings of an anchor: lines and what they say, "no anchor", and refusals.

mod common;

use common::{line, run};
use telfjost::{Anchor, Kind, Lent, Line, Refusal, Run};

type Read<'l> = Result<Option<Anchor<'l>>, Refusal>;

/// What the two functions say of a line: as a whole, inline.
fn both(lent: Lent<'_>) -> [Read<'_>; 2] {
    [lent.block_anchor(), lent.inline_anchor()]
}

/// An anchor's id, its reference text, how it is shown, tokens consumed.
type Told<'t> = (&'t str, Option<&'t str>, Option<&'t str>, usize);

fn says(read: Read<'_>, told: Told<'_>, case: &str) {
    let anchor = read.unwrap_or_else(|refusal| panic!("{case}: {refusal}"));
    let anchor = anchor.unwrap_or_else(|| panic!("{case}: no anchor"));
    let (id, text, shown, consumed) = told;
    assert_eq!(anchor.id(), id, "{case}");
    assert_eq!(anchor.reference_text().map(|text| text.to_string()).as_deref(), text, "{case}");
    assert_eq!(anchor.shown_text().map(|text| text.to_string()).as_deref(), shown, "{case}");
    assert_eq!(anchor.first_is_discard(), text != shown, "{case}");
    assert_eq!(anchor.consumed(), consumed, "{case}");
}

/// The two functions say the same of a line.
fn both_say(line: &Line, told: Told<'_>, case: &str) {
    for read in both(line.lent()) {
        says(read, told, case);
    }
}

fn both_say_of_each(cases: &[(&str, Told<'_>)]) {
    for (text, told) in cases {
        both_say(&line(text), *told, text);
    }
}

#[test]
fn no_reference_text() {
    both_say_of_each(&[
        ("a]]", ("a", None, None, 3)),
        ("a]", ("a", None, None, 2)),
        ("a]b", ("a", None, None, 3)),
        ("a],", ("a", None, None, 3)),
        ("a]b,c]]", ("a", None, None, 3)),
        ("a]]]]", ("a", None, None, 3)),
        ("a\\]]", ("a\\", None, None, 4)),
        ("a b 9]]", ("a b 9", None, None, 7)),
        ("a,]]", ("a", None, None, 4)),
        ("#]]", ("#", None, None, 3)),
        ("..a]]", ("..a", None, None, 4)),
        ("[a]]", ("[a", None, None, 4)),
    ]);
    let more: Line = [(Kind::Word, "a"), (Kind::CloseBracket, "]"), (Kind::Word, "b"), (Kind::Word, "b")]
        .into_iter()
        .collect();
    both_say(&more, ("a", None, None, 3), "a]bb");
}

#[test]
fn a_reference_text() {
    both_say_of_each(&[
        ("a,b]]", ("a", Some("b"), Some("b"), 5)),
        ("a, b]]", ("a", Some(" b"), Some("b"), 6)),
        ("a,  b]]", ("a", Some("  b"), Some(" b"), 7)),
        ("a, ]]", ("a", Some(" "), Some(""), 5)),
        ("a,b ]]", ("a", Some("b "), Some("b "), 6)),
        ("a,b,c]]", ("a", Some("b,c"), Some("b,c"), 7)),
        ("a,\"b\"]]", ("a", Some("\"b\""), Some("\"b\""), 7)),
        ("a,b\\]]", ("a", Some("b\\"), Some("b\\"), 6)),
        ("glucose,Fasting glucose]]", ("glucose", Some("Fasting glucose"), Some("Fasting glucose"), 7)),
    ]);
}

#[test]
fn the_two_differ_behind_the_comma() {
    let whole = [
        ("a,b]c]]", ("a", Some("b]c"), Some("b]c"), 7)),
        ("a,b]\\]]", ("a", Some("b]\\"), Some("b]\\"), 7)),
        ("a,]b]]", ("a", Some("]b"), Some("]b"), 6)),
        ("a, ]b]]", ("a", Some(" ]b"), Some("]b"), 7)),
    ];
    for (text, told) in whole {
        let line = line(text);
        says(line.lent().block_anchor(), told, text);
        assert_eq!(line.lent().inline_anchor(), Err(Refusal::AnchorMalformed), "{text}");
    }
    let inline = [
        ("a,b]]c", ("a", Some("b"), Some("b"), 5)),
        ("a,]],", ("a", None, None, 4)),
        ("a, b]] c]", ("a", Some(" b"), Some("b"), 6)),
    ];
    for (text, told) in inline {
        let line = line(text);
        says(line.lent().inline_anchor(), told, text);
        assert_eq!(line.lent().block_anchor(), Err(Refusal::AnchorMalformed), "{text}");
    }
    // both read these, and not alike
    let three = line("a,b]]]");
    says(three.lent().block_anchor(), ("a", Some("b]"), Some("b]"), 6), "a,b]]]");
    says(three.lent().inline_anchor(), ("a", Some("b"), Some("b"), 5), "a,b]]]");
    let again = line("a,]],b]]");
    says(again.lent().block_anchor(), ("a", Some("]],b"), Some("]],b"), 8), "a,]],b]]");
    says(again.lent().inline_anchor(), ("a", None, None, 4), "a,]],b]]");
}

#[test]
fn runs_of_the_id_and_of_the_reference_text() {
    let line = line("a.b, c d]]e]]");
    for (read, count) in both(line.lent()).into_iter().zip([7, 4]) {
        let anchor = read.unwrap().unwrap();
        assert_eq!(anchor.id().run(), run(0, 3));
        assert_eq!(anchor.reference_text().unwrap().run(), run(4, count));
        assert_eq!(anchor.shown_text().unwrap().run(), run(5, count - 1));
        assert_eq!(anchor.line(), line.lent());
    }
}

#[test]
fn a_first_token_that_counts_as_discard() {
    let of = |first: &[(Kind, &str)]| -> Line {
        let before = [(Kind::Word, "a"), (Kind::Comma, ",")];
        let close = [(Kind::CloseBracket, "]"); 2];
        before.iter().chain(first).chain(&close).copied().collect()
    };
    let (blank, discard, word) = ((Kind::Whitespace, "  "), (Kind::Discard, " "), (Kind::Word, "b"));
    let break_kept = (Kind::NoBreakSpace, "~");
    let cases: [(&[(Kind, &str)], bool); 8] = [
        (&[blank, word], true),
        (&[discard, word], true),
        (&[discard], true),
        (&[blank, blank], true),
        (&[blank, discard, word], true),
        (&[word, blank], false),
        (&[word, discard], false),
        (&[break_kept, word], false),
    ];
    for (tokens, yes) in cases {
        let line = of(tokens);
        for read in both(line.lent()) {
            let anchor = read.unwrap().unwrap();
            assert_eq!(anchor.first_is_discard(), yes, "{tokens:?}");
            // its place belongs to the run all the same, and what is shown begins behind it
            assert_eq!(anchor.reference_text().unwrap().run(), run(2, tokens.len()), "{tokens:?}");
            let shown = match (yes, tokens.len()) {
                (true, 1) => Run::default(),
                (true, count) => run(3, count - 1),
                (false, count) => run(2, count),
            };
            assert_eq!(anchor.shown_text().unwrap().run(), shown, "{tokens:?}");
            // the kinds that were lent are as they were
            assert_eq!(line, of(tokens));
        }
    }
}

#[test]
fn attr_refs_are_kept_and_gaps_are_left_out() {
    both_say_of_each(&[
        ("a{x}]]", ("a{x}", None, None, 4)),
        ("{x}a]]", ("{x}a", None, None, 4)),
        ("{x}]]", ("{x}", None, None, 3)),
        ("a{x}b,{y}c{z}]]", ("a{x}b", Some("{y}c{z}"), Some("{y}c{z}"), 9)),
        ("a, {y}]]", ("a", Some(" {y}"), Some("{y}"), 6)),
        ("a,{y} ]]", ("a", Some("{y} "), Some("{y} "), 6)),
        ("a,{y}]]", ("a", Some("{y}"), Some("{y}"), 5)),
    ]);
    let mut line = Line::new();
    line.gap("~").push(Kind::Word, "a").gap("~").push(Kind::AttrRef, "{x}").gap("~").push(Kind::Comma, ",");
    line.gap("~").push(Kind::Whitespace, " ").gap("~").push(Kind::AttrRef, "{y}").push(Kind::Word, [0xff]);
    line.gap("~").push(Kind::CloseBracket, "]").gap("~").push(Kind::CloseBracket, "]").gap("~");
    for read in both(line.lent()) {
        says(read, ("a{x}", Some(" {y}\u{fffd}"), Some("{y}\u{fffd}"), 8), "with gaps");
        let text = read.unwrap().unwrap().reference_text().unwrap();
        assert_eq!(text.pieces().collect::<Vec<_>>(), [b" ".as_slice(), b"{y}", b"\xff"]);
    }
}

#[test]
fn an_id_of_no_bytes() {
    let of =
        |id: &[(Kind, &str)], rest: &[(Kind, &str)]| -> Line { id.iter().chain(rest).copied().collect() };
    let (none, some) = ((Kind::AttrRef, ""), (Kind::AttrRef, "{x}"));
    let (empty, word) = ((Kind::Word, ""), (Kind::Word, "a"));
    let close = [(Kind::CloseBracket, "]"); 2];
    let text = [(Kind::Comma, ","), word, close[0], close[0]];
    for rest in [close.as_slice(), &close[..1], &text] {
        for id in [[none, none], [empty, none], [empty, empty]] {
            assert_eq!(both(of(&id, rest).lent()), [Err(Refusal::AnchorMalformed); 2], "{id:?} {rest:?}");
            assert_eq!(
                both(of(&id[..1], rest).lent()),
                [Err(Refusal::AnchorMalformed); 2],
                "{id:?} {rest:?}"
            );
        }
        for id in [[none, some], [some, none], [empty, word], [word, none]] {
            assert!(
                both(of(&id, rest).lent()).iter().all(|read| matches!(read, Ok(Some(_)))),
                "{id:?} {rest:?}"
            );
        }
    }
    // a reference text of no bytes is one all the same
    both_say(&of(&[word, (Kind::Comma, ","), none], &close), ("a", Some(""), Some(""), 5), "a,{}]]");
}

#[test]
fn runs_out_or_does_not_close() {
    for text in
        ["a", "a{x}", "#", "..", "a,", "a,b", "a, ", "a,]", "a,b]", "a,b]c", "a,b]c]", "a,b\\]", "a,b],]"]
    {
        assert_eq!(both(line(text).lent()), [Err(Refusal::AnchorMalformed); 2], "{text}");
    }
}

/// Which kinds a line begins with that is no anchor.
const NO_ANCHOR: [Kind; 6] =
    [Kind::SingleQuote, Kind::DoubleQuote, Kind::Whitespace, Kind::CloseBracket, Kind::Digits, Kind::Comma];

#[test]
fn no_anchor() {
    let lines = ["9]]", "\"a]]", "'a',b]]", " a]]", "]]", ",a]]", "]", ",", "9", " ", "'", "\"", "9,b"];
    for text in lines {
        assert_eq!(both(line(text).lent()), [Ok(None); 2], "{text}");
    }
}

#[test]
fn the_first_kind_alone_decides() {
    let close = (Kind::CloseBracket, "]");
    for kind in Kind::ALL {
        let none = NO_ANCHOR.contains(&kind);
        // also where the line runs out, or its first token has no bytes
        let refused = if none { Ok(None) } else { Err(Refusal::AnchorMalformed) };
        let alone: Line = [(kind, "a")].into_iter().collect();
        assert_eq!(both(alone.lent()), [refused; 2], "{kind}");
        let empty: Line = [(kind, ""), close, close].into_iter().collect();
        assert_eq!(both(empty.lent()), [refused; 2], "{kind}");
        let closed: Line = [(kind, "a"), close, close].into_iter().collect();
        assert!(
            both(closed.lent()).iter().all(|read| matches!(read, Ok(told) if told.is_none() == none)),
            "{kind}"
        );
    }
}

#[test]
fn the_longest_line_and_one_more() {
    let of = |n: usize| -> Line {
        let before = [(Kind::Word, "a"), (Kind::Comma, ",")].into_iter();
        before.chain((4..n).map(|_| (Kind::Word, "b"))).chain([(Kind::CloseBracket, "]"); 2]).collect()
    };
    let longest = of(4096);
    for read in both(longest.lent()) {
        let anchor = read.unwrap().unwrap();
        assert_eq!((anchor.consumed(), anchor.reference_text().unwrap().run()), (4096, run(2, 4092)));
    }
    assert_eq!(both(of(4097).lent()), [Err(Refusal::TooManyTokens); 2]);
}

#[test]
fn refusals_of_a_line() {
    let many = vec![Kind::Comma.number(); 4097];
    let (long, pairs) = (vec![b'a'; 65_536], vec![0; 2 * 4097]);
    let is = |kinds, text, pairs, refusal| {
        assert_eq!(both(Lent { kinds, text, pairs }), [Err(refusal); 2]);
    };
    // each with all that comes later, and with "no anchor"
    is(&[], &long, &[0], Refusal::NoTokens);
    is(&many, &long, &[], Refusal::TooManyTokens);
    is(&many[..4096], &long, &[], Refusal::TextTooLong);
    is(&[13, 51], &long[..65_535], &[9], Refusal::PairsNotTwo);
    is(&[13, 51], &[], &[9, 9, 0, 0], Refusal::KindTooLarge);
    is(&[13, 50], &[], &[0, 1, 0, 0], Refusal::PairsNotInOrder);
    is(&[13, 50], b"ab", &[0, 2, 1, 1], Refusal::PairsNotInOrder);
    // and with what 12 is for: each line runs out
    is(&[50; 4097], &[], &pairs, Refusal::TooManyTokens);
    is(&[50], &long, &[0, 1], Refusal::TextTooLong);
    is(&[50], b"a", &[0], Refusal::PairsNotTwo);
    is(&[50], b"a", &[0, 1, 1, 0], Refusal::PairsNotTwo);
    is(&[51], b"a", &[0, 1], Refusal::KindTooLarge);
    is(&[50], b"a", &[0, 2], Refusal::PairsNotInOrder);
    is(&[50], b"a", &[0, 1], Refusal::AnchorMalformed);
    // within the bounds they are answered
    assert_eq!(
        both(Lent { kinds: &many[..4096], text: &long[..65_535], pairs: &pairs[..8192] }),
        [Ok(None); 2]
    );
}
