//! The sheets of the stored answers.

use std::fs;
use std::path::Path;

use sheets::codec::bytes_of;

pub struct Stored {
    pub name: String,
    pub bytes: Vec<u8>,
}

/// Every sheet of every file in `harness/answers`, by file name.
pub fn stored() -> Result<Vec<Stored>, String> {
    let folder = Path::new(env!("CARGO_MANIFEST_DIR")).join("../answers");
    let fault = |fault: std::io::Error| format!("{}: {fault}", folder.display());
    let mut files = Vec::new();
    for entry in fs::read_dir(&folder).map_err(fault)? {
        let path = entry.map_err(fault)?.path();
        if path.extension().is_some_and(|end| end == "txt") {
            files.push(path);
        }
    }
    files.sort();
    let mut all = Vec::new();
    for file in files {
        all.extend(sheets_of(&fs::read_to_string(file).map_err(fault)?)?);
    }
    Ok(all)
}

/// The sheets of one file: of each record the lines `sheet`, and `in` or `hex`.
pub fn sheets_of(text: &str) -> Result<Vec<Stored>, String> {
    let mut all = Vec::new();
    let mut name = "";
    for line in text.lines() {
        let (word, rest) = line.split_once(' ').unwrap_or((line, ""));
        let bytes = match word {
            "sheet" => {
                name = rest;
                continue;
            }
            "in" => words(rest),
            "hex" => hex(rest),
            _ => continue,
        };
        all.push(Stored {
            name: name.to_owned(),
            bytes: bytes.ok_or_else(|| format!("{name}: {line}"))?,
        });
    }
    Ok(all)
}

fn words(text: &str) -> Option<Vec<u8>> {
    let words = text.split_whitespace().map(|word| word.parse().ok());
    Some(bytes_of(&words.collect::<Option<Vec<u32>>>()?))
}

fn hex(text: &str) -> Option<Vec<u8>> {
    let places = (0..text.len()).step_by(2);
    let byte = |at| u8::from_str_radix(text.get(at..at + 2)?, 16).ok();
    places.map(byte).collect()
}
