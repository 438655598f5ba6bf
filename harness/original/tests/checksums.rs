//! The original's files are those that were published, byte for byte.

mod sha256;

use std::fs;
use std::path::{Path, PathBuf};

fn upstream() -> PathBuf {
    Path::new(env!("CARGO_MANIFEST_DIR")).join("upstream")
}

fn files_below(folder: &Path, found: &mut Vec<PathBuf>) {
    for entry in fs::read_dir(folder).expect("a folder") {
        let path = entry.expect("an entry").path();
        if path.is_dir() {
            files_below(&path, found);
        } else {
            found.push(path);
        }
    }
}

#[test]
fn sha256_of_known_texts() {
    let empty = "e3b0c44298fc1c149afbf4c8996fb92427ae41e4649b934ca495991b7852b855";
    let abc = "ba7816bf8f01cfea414140de5dae2223b00361a396177a9cb410ff61f20015ad";
    assert_eq!(sha256::hex(b""), empty);
    assert_eq!(sha256::hex(b"abc"), abc);
}

#[test]
fn every_file_has_its_checksum() {
    let sums = fs::read_to_string(upstream().join("SHA256SUMS")).expect("the list");
    let mut listed: Vec<PathBuf> = vec![upstream().join("SHA256SUMS")];
    for line in sums.lines() {
        let (sum, file) = line.split_once("  ").expect("a sum and a file");
        let path = upstream().join(file);
        assert_eq!(
            sha256::hex(&fs::read(&path).expect("a file")),
            sum,
            "{file}"
        );
        listed.push(path);
    }
    let mut found = Vec::new();
    files_below(&upstream(), &mut found);
    listed.sort();
    found.sort();
    assert_eq!(found, listed, "no file without a checksum");
    assert_eq!(found.len(), 7, "five files, their licence, the list");
}
