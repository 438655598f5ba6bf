//! Copies the original's files and inserts the lines of `insertions.txt`.
//!
//! Each insertion is a whole line that stands in front of, or behind, a line of
//! the unchanged text which occurs there exactly once. Behind the text of one file
//! stands that of `behind.rs`, which calls its private functions.

use std::fs;
use std::path::{Path, PathBuf};

const FILES: [&str; 5] = [
    "action.rs",
    "model.rs",
    "mutual_recursion.rs",
    "provenance.rs",
    "transform/analysis.rs",
];

fn main() {
    let here = PathBuf::from(std::env::var("CARGO_MANIFEST_DIR").expect("set by cargo"));
    let out = PathBuf::from(std::env::var("OUT_DIR").expect("set by cargo"));
    let upstream = here.join("../original/upstream/crates/antlr-rust-codegen/src/grammar");
    let list = read(&here.join("insertions.txt"));
    let insertions = parse(&list);
    for file in FILES {
        println!("cargo::rerun-if-changed={}", upstream.join(file).display());
        let mut text = insert(&read(&upstream.join(file)), file, &insertions);
        if file == "mutual_recursion.rs" {
            text.push_str(&read(&here.join("behind.rs")));
        }
        fs::write(out.join(flat(file)), text).expect("the build folder can be written");
    }
    let frontend = here.join("../original/src/grammar/frontend.rs");
    fs::write(out.join("grammar.rs"), modules(&out, &frontend)).expect("as above");
    println!("cargo::rerun-if-changed=insertions.txt");
    println!("cargo::rerun-if-changed=behind.rs");
    println!("cargo::rerun-if-changed=build.rs");
}

fn read(path: &Path) -> String {
    fs::read_to_string(path).unwrap_or_else(|fault| panic!("{}: {fault}", path.display()))
}

fn flat(file: &str) -> &str {
    file.rsplit('/')
        .next()
        .expect("split gives at least one part")
}

struct Insertion<'a> {
    file: &'a str,
    before: bool,
    anchor: &'a str,
    line: &'a str,
}

/// Records of three lines: `file before|after`, the anchor, the line to insert.
fn parse(list: &str) -> Vec<Insertion<'_>> {
    let mut insertions = Vec::new();
    let mut lines = list
        .lines()
        .filter(|line| !line.is_empty() && !line.starts_with("//"));
    while let Some(head) = lines.next() {
        let (file, place) = head.split_once(' ').expect("a file and a place");
        insertions.push(Insertion {
            file,
            before: place == "before",
            anchor: lines.next().expect("an anchor"),
            line: lines.next().expect("a line to insert"),
        });
    }
    insertions
}

fn insert(text: &str, file: &str, insertions: &[Insertion<'_>]) -> String {
    let own: Vec<_> = insertions.iter().filter(|one| one.file == file).collect();
    for one in &own {
        let found = text.lines().filter(|line| *line == one.anchor).count();
        assert_eq!(found, 1, "{file}: {}", one.anchor);
    }
    let mut out = String::new();
    for line in text.split_inclusive('\n') {
        let bare = line.trim_end_matches('\n');
        let here: Vec<_> = own.iter().filter(|one| one.anchor == bare).collect();
        for one in here.iter().filter(|one| one.before) {
            out.push_str(&format!("{}\n", one.line));
        }
        out.push_str(line);
        for one in here.iter().filter(|one| !one.before) {
            out.push_str(&format!("{}\n", one.line));
        }
    }
    out
}

/// The module tree; the folder of the copies is known at build time alone.
fn modules(out: &Path, frontend: &Path) -> String {
    let declare = |name: &str, path: &Path| {
        format!(
            "#[path = {:?}]\npub(crate) mod {name};\n",
            path.display().to_string()
        )
    };
    let copies = FILES.map(|file| {
        let name = flat(file).trim_end_matches(".rs");
        declare(name, &out.join(flat(file)))
    });
    copies.concat() + &declare("frontend", frontend)
}
