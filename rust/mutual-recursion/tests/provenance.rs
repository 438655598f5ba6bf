//! What is said of the archives is what stands beside those that were linked.

use std::fs;
use std::path::{Path, PathBuf};

use mutual_recursion::{ARCHIVES, Made, Provenance};

#[test]
fn each_in_its_words() {
    let (kit, sources) = ("kit 1", "abc");
    let said = |made| Provenance { made, kit, sources }.to_string();
    assert_eq!(said(Made::Here), "proved here with kit 1");
    assert_eq!(
        said(Made::Shipped),
        "built from these sources by kit 1, proved by the gate; not proved on this machine"
    );
    assert_eq!(
        said(Made::Elsewhere),
        "linked from archives of which nothing is known; kit kit 1"
    );
}

#[test]
fn as_the_record_has_it() {
    let root = Path::new(env!("CARGO_MANIFEST_DIR")).join("../..");
    let named = option_env!("ARCHIVES").map(PathBuf::from);
    let folders = match named {
        Some(folder) => vec![folder],
        None => vec![root.join("target/staticlib"), root.join("dist")],
    };
    let read = |name: &str| {
        let mut files = folders.iter().map(|folder| folder.join(name));
        files.find_map(|file| fs::read_to_string(file).ok())
    };
    let names_all = |text: &String| text.matches("  lib").count() == 5;
    let (proved, shipped) = (read("PROVENANCE").filter(names_all), read("DIGESTS"));
    let record = proved.as_deref().or(shipped.as_deref()).unwrap_or_default();
    let told = |word: &str| {
        let start = format!("# {word} ");
        let mut lines = record.lines();
        lines.find_map(|line| line.strip_prefix(&start))
    };
    let is_here = told("made") == Some("here");
    let made = match (record.is_empty(), is_here) {
        (true, _) => Made::Elsewhere,
        (false, true) => Made::Here,
        (false, false) => Made::Shipped,
    };
    assert_eq!(ARCHIVES.made, made);
    assert_eq!(ARCHIVES.kit, told("kit").unwrap_or("unknown"));
    assert_eq!(ARCHIVES.sources, told("sources").unwrap_or("unknown"));
}
