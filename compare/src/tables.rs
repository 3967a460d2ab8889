//! The tables of docs/DIFFERENCES.md held to the record: every line and every subs text in them is
//! a claim, the sets in the columns port, sheet and Asciidoctor are those recorded, so are those of a
//! block, and so is whatever stands between backticks in the columns of the Rust and of Asciidoctor.

use std::collections::HashMap;

use crate::differences::{ASCIIDOCTOR, Claim};

/// A row of a table, with the names of its columns.
struct Row<'p> {
    columns: &'p [&'p str],
    cells: Vec<&'p str>,
    line: &'p str,
}

impl<'p> Row<'p> {
    fn cell(&self, name: &str) -> Option<&'p str> {
        let at = self.columns.iter().position(|column| *column == name)?;
        self.cells.get(at).copied()
    }

    fn missing(&self, what: &str) -> String {
        format!("{what} stands on the page and in no claim of the record: {}", self.line)
    }
}

fn cells(line: &str) -> Option<Vec<&str>> {
    let inside = line.strip_prefix('|')?.strip_suffix('|')?;
    Some(inside.split('|').map(str::trim).collect())
}

/// The claims by what the page writes of them: a line without its block, a token by its text.
type ByText<'c> = HashMap<String, Vec<&'c Claim<'c>>>;

fn by_text<'c>(claims: &'c [Claim<'c>]) -> ByText<'c> {
    let mut found: ByText<'c> = HashMap::new();
    for claim in claims {
        let line = claim.text.split_once(' ').map_or("", |(_, line)| line);
        let text = if claim.entry == "on" { line } else { claim.text };
        found.entry(without_kinds(text)).or_default().push(claim);
    }
    found
}

/// Holds every table of the page to the claims. Gives how many of their rows show one.
pub fn check(page: &str, claims: &[Claim<'_>]) -> Result<usize, String> {
    let claims = by_text(claims);
    let mut columns: Vec<&str> = Vec::new();
    let mut class = "";
    let mut rows = 0;
    for line in page.lines() {
        let Some(cells) = cells(line) else {
            columns.clear();
            continue;
        };
        if columns.is_empty() {
            columns = cells;
            continue;
        }
        // a class is named in its first row alone
        class = cells[0].split(' ').next().filter(|first| !first.is_empty()).unwrap_or(class);
        let row = Row { columns: &columns, cells, line };
        if let Some(text) = row.cell("text").filter(|text| !text.starts_with("---")) {
            check_text(&row, text, class, &claims)?;
            rows += 1;
        } else if let Some(lines) = row.cell("line").filter(|lines| !lines.starts_with("---")) {
            check_lines(&row, lines, &claims)?;
            rows += 1;
        }
    }
    Ok(rows)
}

/// A row of a subs text: its class and every set of it.
fn check_text(row: &Row<'_>, text: &str, class: &str, claims: &ByText<'_>) -> Result<(), String> {
    let found = claims.get(&plain(text)).and_then(|found| found.first()).ok_or(row.missing(text))?;
    let recorded = [
        ("port", found.side("Rust")),
        ("sheet", found.side("sheet")),
        (ASCIIDOCTOR, Some(found.asciidoctor())),
    ];
    for (column, words) in recorded {
        if row.cell(column) != words {
            return Err(format!("the record has {words:?} in the column {column}: {}", row.line));
        }
    }
    if found.class != class {
        return Err(format!("the class of {text} is {} in the record: {}", found.class, row.line));
    }
    Ok(())
}

/// A row of one or more lines: what is said of the Rust and of Asciidoctor in backticks, and the
/// set of a block.
fn check_lines(row: &Row<'_>, lines: &str, claims: &ByText<'_>) -> Result<(), String> {
    let mut found: Vec<&Claim<'_>> = Vec::new();
    for span in spans(lines) {
        let written = plain(span);
        let bare = written.strip_prefix('[').unwrap_or(&written);
        let of_anchor = written.strip_prefix("[[").unwrap_or(bare);
        let before = found.len();
        let texts = [written.as_str(), bare, of_anchor];
        found.extend(texts.iter().filter_map(|text| claims.get(*text)).flatten());
        if found.len() == before {
            return Err(row.missing(span));
        }
    }
    if let Some(block) = row.cell("block") {
        let name = block.replace(", ", "-").replace(' ', "-") + " ";
        let on = found.iter().find(|claim| claim.entry == "on" && claim.text.starts_with(&name));
        let recorded = on.ok_or(row.missing(lines))?.asciidoctor();
        if row.cell(ASCIIDOCTOR) != Some(recorded) {
            return Err(format!("the record has {recorded}: {}", row.line));
        }
    }
    for (column, who) in [("the Rust", "Rust"), (ASCIIDOCTOR, ASCIIDOCTOR)] {
        for span in spans(row.cell(column).unwrap_or_default()) {
            let quoted = format!("`{}`", span.replace('⇥', "\t"));
            if !found.iter().filter_map(|claim| claim.side(who)).any(|words| words.contains(&quoted)) {
                return Err(format!("`{span}` is not what is recorded of {who}: {}", row.line));
            }
        }
    }
    Ok(())
}

/// A line of the page as the record writes it: a tab written out, and nothing before a link's
/// bracket.
fn plain(span: &str) -> String {
    span.strip_prefix("link:t[").unwrap_or(span).replace('⇥', "<TAB>")
}

/// What stands between backticks.
fn spans(cell: &str) -> impl Iterator<Item = &str> {
    cell.split('`').skip(1).step_by(2)
}

/// `⟨Kind text⟩` is its text.
fn without_kinds(text: &str) -> String {
    let mut out = String::new();
    let mut rest = text;
    while let Some((before, behind)) = rest.split_once('⟨') {
        out.push_str(before);
        let (inside, after) = behind.split_once('⟩').unwrap_or((behind, ""));
        out.push_str(inside.split_once(' ').map_or(inside, |(_, text)| text));
        rest = after;
    }
    out + rest
}
