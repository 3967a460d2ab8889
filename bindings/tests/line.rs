//! Lines and the question whether one is a block attribute list.

use telfjost::{Kind, Lent, Line, Refusal, Run};

fn line(tokens: &[(Kind, &str)]) -> Line {
    tokens.iter().copied().collect()
}

#[test]
fn yes_and_no() {
    use Kind::{Backslash, CloseBracket, OpenBracket, Word};
    let (open, close, word, back) = ((OpenBracket, "["), (CloseBracket, "]"), (Word, "a"), (Backslash, "\\"));
    let cases: [(&[(Kind, &str)], bool); 8] = [
        (&[open, close], true),
        (&[open, word, close], true),
        (&[open, close, word, close], true),
        (&[open], false),
        (&[close], false),
        (&[word, close], false),
        (&[open, word, back, close], false),
        (&[open, open, word, close], false),
    ];
    for (tokens, yes) in cases {
        assert_eq!(line(tokens).lent().is_block_attr_list(), Ok(yes), "{tokens:?}");
    }
}

#[test]
fn every_refusal_of_a_line() {
    let many = vec![10u8; 4097];
    let pairs = vec![0u32; 2 * 4097];
    let long = vec![b'a'; 65_536];
    let lent = |kinds, text, pairs| Lent { kinds, text, pairs }.is_block_attr_list();
    assert_eq!(lent(&[], &[], &[]), Err(Refusal::NoTokens));
    assert_eq!(lent(&many, &long, &[]), Err(Refusal::TooManyTokens));
    assert_eq!(lent(&many[..4096], &long, &[]), Err(Refusal::TextTooLong));
    assert_eq!(lent(&many[..4096], &long[..65_535], &[]), Err(Refusal::PairsNotTwo));
    assert_eq!(lent(&[51], &[], &[0, 0]), Err(Refusal::KindTooLarge));
    assert_eq!(lent(&[50], &[], &[0, 1]), Err(Refusal::PairsNotInOrder));
    assert_eq!(lent(&[50, 50], &[1, 2], &[0, 2, 1, 1]), Err(Refusal::PairsNotInOrder));
    assert_eq!(lent(&[50], &[1], &[u32::MAX, u32::MAX]), Err(Refusal::PairsNotInOrder));
    assert_eq!(lent(&many[..4096], &long[..65_535], &pairs[..8192]), Ok(false));
}

#[test]
fn a_line_pushed_past_the_bounds_is_refused() {
    let mut text = Line::new();
    text.push(Kind::Word, vec![b'a'; 65_536]);
    assert_eq!(text.lent().is_block_attr_list(), Err(Refusal::TextTooLong));
    let tokens: Line = (0..4097).map(|_| (Kind::Word, "")).collect();
    assert_eq!(tokens.lent().is_block_attr_list(), Err(Refusal::TooManyTokens));
    let mut again = tokens.clone();
    again.clear();
    assert_eq!(again, Line::new());
}

#[test]
fn a_run_is_read_without_its_references_and_with_them() {
    let mut built = Line::new();
    built
        .push(Kind::Word, "a")
        .push(Kind::AttrRef, "{x}")
        .gap("~~")
        .push(Kind::Word, [0xff])
        .push(Kind::Comma, ",");
    let lent = built.lent();
    let text = |place, count| lent.text_of(Run { place, count });
    assert_eq!(text(0, 3).to_bytes().as_ref(), [b'a', 0xff]);
    assert_eq!(text(0, 3).to_string(), "a\u{fffd}");
    assert_eq!(text(3, 1), ",");
    assert!(text(1, 1).is_empty() && Run::default().is_empty());
    assert!(text(0, 1) != "ab" && text(0, 1) != "b");
    // places past the line say nothing
    assert_eq!(text(3, usize::MAX), ",");
    assert_eq!(text(9, 1), "");
    // as an anchor's is read, with them
    assert_eq!(lent.text_with_attr_refs(Run { place: 0, count: 3 }).to_bytes().as_ref(), b"a{x}\xff");
    assert_eq!(lent.text_with_attr_refs(Run { place: 1, count: usize::MAX }).to_string(), "{x}\u{fffd},");
    assert_eq!((lent.kind(1), lent.kind(4), lent.lexeme(4)), (Some(Kind::AttrRef), None, None));
}

#[test]
fn kinds_and_refusals_by_number() {
    for (number, kind) in Kind::ALL.into_iter().enumerate() {
        assert_eq!(usize::from(kind.number()), number);
        assert_eq!(Kind::of_name(&kind.to_string()), Some(kind));
    }
    assert_eq!(Kind::of_number(51), None);
    for number in 1..20 {
        let refusal = Refusal::of_number(number).unwrap();
        assert_eq!(refusal.number(), number);
        assert!(refusal.to_string().starts_with(&format!("refusal {number}")));
    }
    assert_eq!(Refusal::KindTooLarge.to_string(), "refusal 5: kinds: some kind over 50");
    assert_eq!(Refusal::RowsTooShort.to_string(), "refusal 7: row buffer: under 6 × tokens");
    assert_eq!(Refusal::of_number(12), Some(Refusal::AnchorMalformed));
    assert_eq!(
        Refusal::AnchorMalformed.to_string(),
        "refusal 12: anchor: does not close as it should, or its id has no bytes"
    );
    assert_eq!(Refusal::of_number(13), Some(Refusal::Other(13)));
}
