//! The record of what docs/DIFFERENCES.md claims, `differences.txt`: each claim with what the
//! Rust and this reader give and what Asciidoctor gave. Here our sides are made anew; the script
//! `differences` says how the other one is.
//!
//! A claim is a line `CLASS ENTRY TEXT`, and below it its sides, four spaces in, each with the
//! name of who gives it. ENTRY is one of
//!
//!   block, macro, inline, link   an attribute line, without its opening bracket
//!   block-anchor, inline-anchor  a line with an anchor, behind its two brackets
//!   is                           a line with its opening bracket: is it an attribute line?
//!   subs                         `N` or `V` and a text in backticks: the set that it makes
//!   on                           a block's name and a block attribute line above it
//!   texts                        the texts of `explained.rs`
//!   lines                        an entry, a length and pieces: every line of up to so many pieces
//!                                and a closing bracket; ␣ is a blank. Recorded by a digest

use crate::check::{Worker, expected_set};
use crate::explained::{self, Digest, written};
use crate::library::Library;
use crate::lines::LineBuf;
use crate::rust_side::{self, Entry, Mode, ROW};
use crate::tables;
use crate::words::{self, Asked};

pub const RECORD: &str = "differences.txt";
pub const PAGE: &str = "../docs/DIFFERENCES.md";

const INDENT: &str = "    ";
pub const ASCIIDOCTOR: &str = "Asciidoctor";

pub struct Claim<'r> {
    head: &'r str,
    pub class: &'r str,
    pub entry: &'r str,
    pub text: &'r str,
    sides: Vec<(&'r str, &'r str)>,
}

impl<'r> Claim<'r> {
    pub fn side(&self, name: &str) -> Option<&'r str> {
        self.sides.iter().find(|(who, _)| *who == name).map(|(_, words)| *words)
    }

    /// Asciidoctor's answer without its warnings.
    pub fn asciidoctor(&self) -> &'r str {
        self.side(ASCIIDOCTOR).and_then(|words| words.split(" (").next()).unwrap_or_default()
    }
}

/// The heading, and the claims.
fn parse(record: &str) -> Result<(&str, Vec<Claim<'_>>), String> {
    let (heading, rest) = record.split_once('\n').ok_or("the record is empty")?;
    let mut claims: Vec<Claim<'_>> = Vec::new();
    for line in rest.lines() {
        if let Some(side) = line.strip_prefix(INDENT) {
            let claim = claims.last_mut().ok_or(format!("a side with no claim: {line}"))?;
            let (who, words) = side.split_at_checked(13).ok_or(format!("no side: {line}"))?;
            claim.sides.push((who.trim_end(), words));
        } else {
            let mut words = line.splitn(3, ' ');
            let mut next = || words.next().ok_or(format!("no claim: {line}"));
            let (class, entry, text) = (next()?, next()?, next()?);
            claims.push(Claim { head: line, class, entry, text, sides: Vec::new() });
        }
    }
    Ok((heading, claims))
}

/// `N` or `V`, and the text between the backticks.
fn subs_text(text: &str) -> Option<(rust_side::Set, &str)> {
    let (letter, rest) = text.split_once(' ')?;
    Some((explained::start(letter)?, rest.strip_prefix('`')?.strip_suffix('`')?))
}

/// What the Rust and this reader give for a claim. The library's answers are held to the
/// Rust's and the model's.
fn our_sides(claim: &Claim<'_>, worker: &mut Worker<'_>) -> Result<Vec<(&'static str, String)>, Box<String>> {
    let text = claim.text.replace("<TAB>", "\t");
    let unknown = || Box::new(format!("no such claim: {}\n", claim.head));
    match claim.entry {
        "subs" => {
            let (set, text) = subs_text(&text).ok_or_else(unknown)?;
            let give = |mode| written(expected_set(mode, set, Some(text.as_bytes())).set);
            worker.subs(Mode::Port, set, Some(text.as_bytes()), b"")?;
            worker.subs(Mode::Sheet, set, Some(text.as_bytes()), b"")?;
            Ok(vec![("Rust", give(Mode::Port)), ("sheet", give(Mode::Sheet))])
        }
        "texts" => explained::explained(worker),
        "lines" => every_line(&text, worker).ok_or_else(unknown)?,
        "is" => {
            let line = LineBuf::lex(&text);
            worker.is_block_attr_list(line.lent())?;
            let yes = rust_side::is_block_attr_list(line.lent());
            Ok(vec![("Rust", if yes { "yes" } else { "no" }.to_string())])
        }
        entry => {
            let (entry, text) = match entry {
                "on" => (Asked::List(Entry::Block), text.split_once(' ').ok_or_else(unknown)?.1),
                _ => (words::entry_of(entry).ok_or_else(unknown)?, text.as_str()),
            };
            Ok(vec![("Rust", read(entry, &LineBuf::lex(text), worker)?)])
        }
    }
}

/// The Rust's answer in words; the library's is held to it.
fn read(asked: Asked, line: &LineBuf, worker: &mut Worker<'_>) -> Result<String, Box<String>> {
    match asked {
        Asked::List(entry) => worker.list(entry, line.lent(), ROW * line.kinds.len(), 1)?,
        Asked::Anchor(entry) => worker.anchor(entry, line.lent())?,
    }
    Ok(words::answer(asked, line))
}

/// Every line of up to so many pieces and a closing bracket, the shorter ones first.
fn lines_of(longest: usize, pieces: &[String]) -> Vec<String> {
    let mut lines = vec![String::new()];
    let mut from = 0;
    for _ in 0..longest {
        let to = lines.len();
        for at in from..to {
            for piece in pieces {
                lines.push(format!("{}{piece}", lines[at]));
            }
        }
        from = to;
    }
    lines.into_iter().map(|line| line + "]").collect()
}

/// How many lines there are, and the digest of the Rust's answers; None if the claim is none.
fn every_line(
    text: &str,
    worker: &mut Worker<'_>,
) -> Option<Result<Vec<(&'static str, String)>, Box<String>>> {
    let mut words = text.split(' ');
    let entry = words::entry_of(words.next()?)?;
    let longest = words.next()?.parse().ok()?;
    let pieces: Vec<String> = words.map(|piece| piece.replace('␣', " ")).collect();
    let lines = lines_of(longest, &pieces);
    let mut digest = Digest::new();
    for text in &lines {
        match read(entry, &LineBuf::lex(text), worker) {
            Ok(words) => digest.add(&words),
            Err(words) => return Some(Err(words)),
        }
    }
    Some(Ok(vec![("lines", lines.len().to_string()), ("Rust", digest.written())]))
}

/// The record with our sides made anew.
pub fn our_side(record: &str, library: &Library) -> Result<String, String> {
    let (heading, claims) = parse(record)?;
    let mut worker = Worker::new(library);
    worker.class = "claims of docs/DIFFERENCES.md";
    let mut out = format!("{heading}\n");
    for claim in &claims {
        let ours = our_sides(claim, &mut worker).map_err(|words| *words)?;
        let theirs = claim.sides.iter().filter(|(who, _)| *who == ASCIIDOCTOR);
        out.push_str(claim.head);
        out.push('\n');
        for (who, words) in ours.iter().map(|(who, words)| (*who, words.as_str())).chain(theirs.copied()) {
            out.push_str(&format!("{INDENT}{who:<13}{words}\n"));
        }
    }
    Ok(out)
}

/// Holds the record to what is given now, and the page to the record. Says how many claims.
pub fn check(library: &Library) -> Result<String, String> {
    let record = std::fs::read_to_string(RECORD).map_err(|e| format!("cannot read {RECORD}: {e}"))?;
    let now = our_side(&record, library)?;
    if let Some((was, is)) = record.lines().zip(now.lines()).find(|(was, is)| was != is) {
        return Err(format!("the record says  {was}\n  now it is         {is}"));
    }
    if record.lines().count() != now.lines().count() {
        return Err("the record has a side too many or too few".to_string());
    }
    let (claims, rows) = check_page(&record)?;
    Ok(format!("{claims} claims as recorded, {rows} table rows of the page among them"))
}

/// Holds the page to the record. Gives how many claims and table rows.
pub fn check_page(record: &str) -> Result<(usize, usize), String> {
    let (_, claims) = parse(record)?;
    for claim in &claims {
        let given =
            claim.side(ASCIIDOCTOR).ok_or(format!("Asciidoctor's side is missing: {}", claim.head))?;
        if claim.entry == "texts" && claim.side("A1 to A7") != Some(given) {
            return Err(
                "with every cause switched on, the texts are not read as Asciidoctor reads them".into()
            );
        }
    }
    let text = std::fs::read_to_string(PAGE).map_err(|e| format!("cannot read {PAGE}: {e}"))?;
    Ok((claims.len(), tables::check(&text, &claims)?))
}
