//! Makes the Rust sources ready to be compiled into the harness: each file is copied whole to
//! the folder of generated files, and the edits below are made. An edit must match exactly
//! once or the build stops. No function under test is edited.
//!
//! usage: prepare SOURCE_FOLDER GENERATED_FOLDER EXPORTS_LIST [STATIC_LIBRARY HEADER]
//!
//! With a static library it also holds the list of exports to the library's own symbol table
//! and to the header, both ways, and stops if they differ.

use std::collections::BTreeSet;
use std::fs;
use std::path::Path;
use std::process::exit;

/// File, text to find, text to put, why.
const EDITS: [(&str, &str, &str, &str); 3] = [
    (
        "tasks/parse_attr_list.rs",
        "  fn parse_attr_nodes(",
        "  #[allow(dead_code)]\n  fn parse_attr_nodes_of_the_source(",
        "the recorder takes the name",
    ),
    (
        "substitutions.rs",
        "\n  order: [Option<Subs>; 7],\n",
        "\n  pub order: [Option<Subs>; 7],\n",
        "to give and read a set",
    ),
    ("substitutions.rs", "\n  flags: u8,\n", "\n  pub flags: u8,\n", "to give and read a set"),
];

const FILES: [&str; 6] = [
    "deq.rs",
    "token.rs",
    "line.rs",
    "substitutions.rs",
    "tasks/parse_attr_list.rs",
    "tasks/customize_subs.rs",
];

fn stop(why: String) -> ! {
    eprintln!("compare: {why}");
    exit(1)
}

fn read(path: &Path) -> Vec<u8> {
    fs::read(path).unwrap_or_else(|e| stop(format!("cannot read {}: {e}", path.display())))
}

fn main() {
    let args: Vec<String> = std::env::args().skip(1).collect();
    if args.len() != 3 && args.len() != 5 {
        stop("usage: prepare SOURCE_FOLDER GENERATED_FOLDER EXPORTS_LIST [STATIC_LIBRARY HEADER]".into());
    }
    let (source, generated) = (Path::new(&args[0]), Path::new(&args[1]));
    for file in FILES {
        let bytes = read(&source.join(file));
        let Ok(mut text) = String::from_utf8(bytes) else { stop(format!("{file} is not UTF-8")) };
        for (_, find, put, why) in EDITS.iter().filter(|edit| edit.0 == file) {
            let matches = text.matches(find).count();
            if matches != 1 {
                stop(format!("{file}: {find:?} ({why}) stands {matches} times, not once"));
            }
            text = text.replacen(find, put, 1);
        }
        let name = Path::new(file).file_name().unwrap();
        if let Err(e) = fs::create_dir_all(generated).and_then(|()| fs::write(generated.join(name), text)) {
            stop(format!("cannot write {}: {e}", generated.display()));
        }
    }
    if args.len() == 5 {
        check_exports(Path::new(&args[2]), Path::new(&args[3]), Path::new(&args[4]));
    }
}

fn check_exports(list: &Path, library: &Path, header: &Path) {
    let listed: BTreeSet<String> = String::from_utf8_lossy(&read(list))
        .lines()
        .map(|line| line.split('#').next().unwrap_or("").trim().to_string())
        .filter(|name| !name.is_empty())
        .collect();
    let defined = symbols(&read(library), library);
    let declared: BTreeSet<String> = declarations(&String::from_utf8_lossy(&read(header)));
    let mut wrong = false;
    let sides = [
        ("is listed but the library does not define it", listed.difference(&defined)),
        ("is exported but not listed, so not compared", defined.difference(&listed)),
        ("is exported but the header does not declare it", defined.difference(&declared)),
        ("is declared by the header but not exported", declared.difference(&defined)),
    ];
    for (what, names) in sides {
        for name in names {
            eprintln!("compare: {name} {what}");
            wrong = true;
        }
    }
    if wrong {
        exit(1);
    }
}

/// The functions that a header declares: each `telfjost_name(` outside comments.
fn declarations(header: &str) -> BTreeSet<String> {
    let mut code = String::new();
    let mut rest = header;
    while let Some(start) = rest.find("/*") {
        code.push_str(&rest[..start]);
        rest = rest[start..].find("*/").map_or("", |end| &rest[start + end + 2..]);
    }
    code.push_str(rest);
    let mut names = BTreeSet::new();
    for (at, _) in code.match_indices("telfjost_") {
        let name: String = code[at..].chars().take_while(|c| c.is_alphanumeric() || *c == '_').collect();
        if code[at + name.len()..].trim_start().starts_with('(') {
            names.insert(name);
        }
    }
    names
}

/// The names with our prefix in an archive's symbol index (its first member, `/`).
fn symbols(archive: &[u8], path: &Path) -> BTreeSet<String> {
    let bad = || -> ! { stop(format!("{} is not an archive with a symbol index", path.display())) };
    if !archive.starts_with(b"!<arch>\n/ ") || archive.len() < 72 {
        bad();
    }
    let size: usize = String::from_utf8_lossy(&archive[56..66]).trim().parse().unwrap_or_else(|_| bad());
    let Some(index) = archive.get(68..68 + size) else { bad() };
    let count = u32::from_be_bytes([index[0], index[1], index[2], index[3]]) as usize;
    let Some(names) = index.get(4 + 4 * count..) else { bad() };
    names
        .split(|byte| *byte == 0)
        .map(|name| String::from_utf8_lossy(name).into_owned())
        .filter(|name| name.starts_with("telfjost_"))
        .collect()
}
