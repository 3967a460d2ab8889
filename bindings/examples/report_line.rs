//! Reads one attribute line of a report sheet and prints its rows in words, each text but a role's
//! and an option's in the quotes in which the author had it.

use telfjost::{Kind, Line, Refusal, Row};

fn main() -> Result<(), Refusal> {
    // [summary#lung,edition="8, draft",width=1450]
    let line: Line = [
        (Kind::Word, "summary"),
        (Kind::Hash, "#"),
        (Kind::Word, "lung"),
        (Kind::Comma, ","),
        (Kind::Word, "edition"),
        (Kind::EqualSigns, "="),
        (Kind::DoubleQuote, "\""),
        (Kind::Digits, "8"),
        (Kind::Comma, ","),
        (Kind::Whitespace, " "),
        (Kind::Word, "draft"),
        (Kind::DoubleQuote, "\""),
        (Kind::Comma, ","),
        (Kind::Word, "width"),
        (Kind::EqualSigns, "="),
        (Kind::Digits, "1450"),
        (Kind::CloseBracket, "]"),
    ]
    .into_iter()
    .collect();

    let list = line.lent().block_attr_list()?;
    for row in list.rows() {
        match row {
            Row::EmptyPositional => println!("positional, empty"),
            Row::Positional { run, quotes } => println!("positional {quotes}{}{quotes}", list.text_of(run)),
            Row::Named { name, value, quotes, .. } => {
                println!("named {} = {quotes}{}{quotes}", list.text_of(name), list.text_of(value))
            }
            Row::Id { run, quotes } => println!("id {quotes}{}{quotes}", list.text_of(run)),
            Row::Role(run) => println!("role {}", list.text_of(run)),
            Row::Option(run) => println!("option {}", list.text_of(run)),
            Row::Diagnostic { place, kind } => println!("{kind}, at token {place}"),
        }
    }
    println!("{} tokens consumed", list.consumed());
    println!("commas taken back: {}", list.rejoined());
    Ok(())
}
