//! The four readings: lines and their rows, the bounds, and the iterators.

mod common;

use common::{line, run};
use telfjost::{Diagnostic, Entry, Kind, Lent, Limit, Line, Quotes, Reader, Refusal, Row, Run};

fn positional(run: Run, quotes: Quotes) -> Row {
    Row::Positional { run, quotes }
}

fn named(name: Run, value: Run, quotes: Quotes) -> Row {
    Row::Named { name, value, plain: false, quotes }
}

fn plain(name: Run, value: Run, quotes: Quotes) -> Row {
    Row::Named { name, value, plain: true, quotes }
}

fn id(run: Run, quotes: Quotes) -> Row {
    Row::Id { run, quotes }
}

fn noted(place: usize, kind: Diagnostic) -> Row {
    Row::Diagnostic { place, kind }
}

fn reads(cases: &[(Entry, &str, &[Row], usize)]) {
    let mut reader = Reader::new();
    for (entry, text, rows, consumed) in cases {
        let line = line(text);
        let list = line.lent().read(*entry).unwrap_or_else(|refusal| panic!("{text}: {refusal}"));
        assert_eq!(list.rows().collect::<Vec<_>>(), *rows, "{entry:?} {text}");
        assert_eq!(list.consumed(), *consumed, "{entry:?} {text}");
        assert_eq!(reader.read(*entry, &line), Ok(list.clone()), "{entry:?} {text}");
        assert_eq!(line.lent().read_within(Limit::Viewer, *entry), Ok(list), "viewer, {entry:?} {text}");
    }
}

#[test]
fn the_bench() {
    use Quotes::{Double, None};
    use Row::{EmptyPositional, Option, Role};
    reads(&[
        (Entry::Block, "]", &[], 1),
        (Entry::Block, "a,b]", &[positional(run(0, 1), None), positional(run(2, 1), None)], 4),
        (Entry::Block, "a,]", &[positional(run(0, 1), None), EmptyPositional], 3),
        (
            Entry::Block,
            "k=\"a,b\",c]",
            &[named(run(0, 1), run(3, 3), Double), positional(run(8, 1), None)],
            10,
        ),
        (Entry::Block, "\",'\",']", &[positional(run(1, 2), Double), positional(run(5, 1), None)], 7),
        (Entry::Block, "a==b=c]", &[named(run(0, 1), run(2, 3), None)], 6),
        (Entry::Block, ".x#y%]", &[Role(run(1, 1)), id(run(3, 1), None), noted(4, Diagnostic::InvalidId)], 6),
        (Entry::Block, "#%o]", &[id(run(0, 0), None), Option(run(2, 1))], 4),
        (Entry::Block, "a...b.c]", &[positional(run(0, 1), None), noted(1, Diagnostic::InvalidList)], 6),
        (Entry::Block, "id=\"\"]", &[noted(0, Diagnostic::EmptyId)], 5),
        (Entry::Block, "#a#b]", &[id(run(1, 1), None), noted(2, Diagnostic::SecondId)], 5),
        (Entry::Block, "subs=q]", &[plain(run(0, 1), run(2, 1), None)], 4),
        (Entry::BlockMacro, ".x]", &[positional(run(0, 2), None)], 3),
        (Entry::InlineMacro, "a\\]b]c", &[positional(run(0, 4), None)], 5),
        (Entry::LinkMacro, "a b]", &[positional(run(0, 3), None)], 4),
        (Entry::LinkMacro, "a=b]", &[named(run(0, 1), run(2, 1), None)], 4),
        (Entry::LinkMacro, "[a]]", &[positional(run(0, 3), None)], 4),
    ]);
}

#[test]
fn quotes_that_were_taken_off() {
    use Quotes::{Double, None, Single};
    use Row::{Option, Role};
    reads(&[
        (Entry::Block, "id=\"x\"]", &[id(run(3, 1), Double)], 6),
        (Entry::Block, "id='x']", &[id(run(3, 1), Single)], 6),
        (Entry::Block, "#x]", &[id(run(1, 1), None)], 3),
        (Entry::Block, "role=\"a\"]", &[Role(run(3, 1))], 6),
        (Entry::Block, "opts='a,b']", &[Option(run(3, 1)), Option(run(5, 1))], 8),
        (Entry::Block, "subs='q']", &[plain(run(0, 1), run(3, 1), Single)], 6),
        (Entry::Block, "\"\"]", &[positional(Run::default(), Double)], 3),
        (Entry::Block, "k=\"\"]", &[named(run(0, 1), Run::default(), Double)], 5),
        (Entry::Block, "\"a]", &[positional(run(0, 2), None)], 3),
        (Entry::Block, "\"a']", &[positional(run(0, 3), None)], 4),
        (Entry::Block, "\"{x}a\"]", &[positional(run(2, 1), Double)], 5),
        (Entry::Block, "\"a\".b]", &[positional(run(0, 5), None)], 6),
        (Entry::Block, "a.b]", &[positional(run(0, 1), None), Role(run(2, 1))], 4),
        (Entry::BlockMacro, "'a']", &[positional(run(1, 1), Single)], 4),
        (Entry::InlineMacro, "'a']", &[positional(run(1, 1), Single)], 4),
        (Entry::LinkMacro, "\"text\"]", &[positional(run(1, 1), Double)], 4),
        (
            Entry::LinkMacro,
            "\"a\",k='v']",
            &[positional(run(1, 1), Double), named(run(4, 1), run(7, 1), Single)],
            10,
        ),
    ]);
    for (number, (quotes, mark)) in [(None, ""), (Double, "\""), (Single, "'")].into_iter().enumerate() {
        assert_eq!((quotes.number(), quotes.mark(), quotes.to_string().as_str()), (number, mark, mark));
    }
}

#[test]
fn commas_taken_back() {
    let cases = [
        (Entry::Block, "]", 0),
        (Entry::Block, "a,b]", 0),
        (Entry::Block, "k=\"a,b\",c]", 1),
        // Both commas are inside a pair, and the pairs cross: one is taken back.
        (Entry::Block, "\",'\",']", 1),
        (Entry::InlineMacro, "',\"',\"]", 1),
        // None is counted.
        (Entry::Block, "a]b,c]", 0),
        (Entry::Block, "name=O'Brien,edition=3,second=O'Neill]", 2),
        // A quote is forgotten behind Glucose.
        (Entry::Block, "title=\"Glucose,edition=3,note=\"see below\",width=1450]", 2),
        (Entry::BlockMacro, "',a',\",b,\"]", 3),
        // A link's list, a link's text, and a list that its first token closes.
        (Entry::LinkMacro, "\"a,b\",k=v]", 1),
        (Entry::LinkMacro, "\"a,b\"]", 0),
        (Entry::LinkMacro, "]\"a,b\"", 0),
    ];
    let mut reader = Reader::new();
    for (entry, text, rejoined) in cases {
        let line = line(text);
        assert_eq!(line.lent().read(entry).map(|list| list.rejoined()), Ok(rejoined), "{entry:?} {text}");
        assert_eq!(reader.read(entry, &line).map(|list| list.rejoined()), Ok(rejoined), "{entry:?} {text}");
    }
}

#[test]
fn no_closing_bracket() {
    for entry in [Entry::Block, Entry::BlockMacro, Entry::InlineMacro, Entry::LinkMacro] {
        assert_eq!(line("a").lent().read(entry), Err(Refusal::NoClosingBracket), "{entry:?}");
    }
    assert_eq!(line("a]b").lent().read(Entry::Block), Err(Refusal::NoClosingBracket));
    assert_eq!(line("a]b").lent().read(Entry::InlineMacro).unwrap().consumed(), 2);
}

#[test]
fn the_longest_line_and_one_more() {
    let commas = |n: usize| -> Line {
        (0..n).map(|_| (Kind::Comma, ",")).chain([(Kind::CloseBracket, "]")]).collect()
    };
    let mut reader = Reader::new();
    let longest = commas(4095);
    let list = reader.read(Entry::Block, &longest).unwrap();
    assert_eq!((list.rows().len(), list.consumed()), (4096, 4096));
    assert!(list.rows().all(|row| row == Row::EmptyPositional));
    let more = commas(4096);
    assert_eq!(reader.read(Entry::Block, &more), Err(Refusal::TooManyTokens));
    assert_eq!(more.lent().read(Entry::Block), Err(Refusal::TooManyTokens));
}

#[test]
fn the_longest_line_of_the_viewer_and_one_more() {
    let commas = |n: usize| -> Line {
        (0..n).map(|_| (Kind::Comma, ",")).chain([(Kind::CloseBracket, "]")]).collect()
    };
    let (longest, more) = (commas(255), commas(256));
    let mut viewer = Reader::with_limit(Limit::Viewer);
    for entry in [Entry::Block, Entry::BlockMacro, Entry::InlineMacro, Entry::LinkMacro] {
        let given = longest.lent().read(entry);
        assert!(given.is_ok() && more.lent().read(entry).is_ok(), "{entry:?}");
        assert_eq!(viewer.read(entry, &longest), given, "{entry:?}");
        assert_eq!(viewer.read(entry, &more), Err(Refusal::TooManyTokens), "{entry:?}");
        assert_eq!(more.lent().read_within(Limit::Viewer, entry), Err(Refusal::TooManyTokens), "{entry:?}");
        // and after a refusal it reads on
        assert_eq!(viewer.read(entry, &longest), given, "{entry:?}");
    }
}

#[test]
fn the_viewers_limit_in_the_order_of_refusals() {
    let mut viewer = Reader::with_limit(Limit::Viewer);
    let long = vec![b'a'; 65_536];
    let words = [Kind::Word.number(); 257];
    let pairs = [0; 514];
    for entry in [Entry::Block, Entry::BlockMacro, Entry::InlineMacro, Entry::LinkMacro] {
        let mut read = |kinds, text, pairs| viewer.read(entry, Lent { kinds, text, pairs }).map(|_| ());
        // over the limit it is 2, whatever else is wrong
        assert_eq!(read(&words, &long, &pairs), Err(Refusal::TooManyTokens), "{entry:?}");
        assert_eq!(read(&words, b"", &[]), Err(Refusal::TooManyTokens), "{entry:?}");
        assert_eq!(read(&[51; 257], b"", &pairs), Err(Refusal::TooManyTokens), "{entry:?}");
        assert_eq!(read(&words, b"", &[1; 514]), Err(Refusal::TooManyTokens), "{entry:?}");
        assert_eq!(read(&words, b"", &pairs), Err(Refusal::TooManyTokens), "{entry:?}");
        // within it each has its number
        assert_eq!(read(&words[..256], &long, &pairs[..512]), Err(Refusal::TextTooLong), "{entry:?}");
        assert_eq!(read(&words[..256], b"", &[]), Err(Refusal::PairsNotTwo), "{entry:?}");
        assert_eq!(read(&[51; 256], b"", &pairs[..512]), Err(Refusal::KindTooLarge), "{entry:?}");
        assert_eq!(read(&words[..256], b"", &[1; 512]), Err(Refusal::PairsNotInOrder), "{entry:?}");
        assert_eq!(read(&words[..256], b"", &pairs[..512]), Err(Refusal::NoClosingBracket), "{entry:?}");
        assert_eq!(read(&[], b"", &[]), Err(Refusal::NoTokens), "{entry:?}");
    }
}

#[test]
fn refusals_of_a_line() {
    let read = |kinds, text, pairs| Lent { kinds, text, pairs }.block_attr_list();
    assert_eq!(read(&[], &[], &[]), Err(Refusal::NoTokens));
    assert_eq!(read(&[51], &[], &[0, 0]), Err(Refusal::KindTooLarge));
    assert_eq!(read(&[10], &[], &[0]), Err(Refusal::PairsNotTwo));
    assert_eq!(read(&[10], &[], &[1, 0]), Err(Refusal::PairsNotInOrder));
}

#[test]
fn a_report_line() {
    let line = line("result.wide%print,edition=\"3, draft\",width=50%,role=a b,edition=4,id=glu{x}cose]");
    let list = line.lent().block_attr_list().unwrap();
    assert_eq!(list.positional().map(|text| text.unwrap().to_string()).collect::<Vec<_>>(), ["result"]);
    assert_eq!(list.values("edition").map(|text| text.to_string()).collect::<Vec<_>>(), ["3, draft", "4"]);
    assert_eq!(list.values("width").next().unwrap(), "50%");
    assert_eq!(list.values("height").count(), 0);
    assert_eq!(list.id().unwrap(), "glucose");
    assert_eq!(list.roles().map(|text| text.to_string()).collect::<Vec<_>>(), ["wide", "a", "b"]);
    assert_eq!(list.options().map(|text| text.to_string()).collect::<Vec<_>>(), ["print"]);
    assert_eq!(list.named().count(), 3);
    assert_eq!(list.diagnostics().count(), 0);
    assert_eq!(list.rows().next_back(), Some(id(list.id().unwrap().run(), Quotes::None)));
    let quoted = list.rows().filter(|row| matches!(row, Row::Named { quotes: Quotes::Double, .. }));
    assert_eq!(quoted.count(), 1);
}

#[test]
fn diagnostics_say_document_01s_words() {
    let words = [
        (Diagnostic::InvalidId, "Invalid id attribute"),
        (Diagnostic::InvalidList, "Invalid attr list"),
        (Diagnostic::EmptyId, "Invalid empty id attribute"),
        (Diagnostic::SecondId, "More than one id attribute"),
    ];
    for (at, (diagnostic, says)) in words.into_iter().enumerate() {
        assert_eq!((diagnostic.number(), diagnostic.to_string().as_str()), (at + 1, says));
    }
}
