//! The grammar that is handed in: a text of the notation, or a sheet.

use std::fs::File;
use std::io::{self, Read};
use std::path::Path;

use notation::{Attributes, Fault, Names, Table, Text, end_of, parse_table};

use crate::options::Options;
use crate::stop::{Status, Stop};

/// The most bytes of a text: far above those of any grammar that fits into a sheet.
const MOST_TEXT: usize = 1 << 20;

#[derive(Debug)]
pub struct Input {
    /// The last part of its path.
    pub name: String,
    pub is_text: bool,
    /// The file: a text, or the sheet.
    pub file: Vec<u8>,
    /// The sheet.
    pub bytes: Vec<u8>,
    /// The table of names that was handed in with a sheet.
    pub table: Option<Vec<u8>>,
    pub names: Names,
    pub attributes: Attributes,
    /// Of a text, where it says what.
    pub text: Option<Text>,
}

pub fn read(options: &Options) -> Result<Input, Stop> {
    let path = &options.grammar;
    let file = read_file(path)?;
    let mut input = Input {
        name: shown(path),
        is_text: !is_sheet(path, &file),
        bytes: Vec::new(),
        table: None,
        names: Names::default(),
        attributes: Attributes::new(),
        text: None,
        file,
    };
    match input.is_text {
        true => input.read_text(path)?,
        false => input.read_table(options.names.as_deref())?,
    }
    Ok(input)
}

impl Input {
    fn read_text(&mut self, path: &Path) -> Result<(), Stop> {
        let found = text(&self.file).map_err(|faults| Stop::text(path, &self.file, &faults))?;
        let grammar = &found.grammar;
        self.bytes = grammar.sheet.bytes();
        self.names = grammar.names.clone();
        self.attributes = grammar.attributes.clone();
        self.text = Some(found);
        Ok(())
    }

    /// The names of a sheet, which must be its own.
    fn read_table(&mut self, path: Option<&Path>) -> Result<(), Stop> {
        self.bytes = self.file.clone();
        let Some(path) = path else { return Ok(()) };
        let bytes = read_file(path)?;
        let table = parse_table(&bytes);
        let table = table.map_err(|fault| Stop::text(path, &bytes, &[fault]))?;
        if let Some(text) = of_another(&table, &self.bytes) {
            let text = format!("{}: {text}", path.display());
            return Err(Stop {
                status: Status::Text,
                text,
            });
        }
        (self.names, self.attributes) = (table.names, table.attributes);
        self.table = Some(bytes);
        Ok(())
    }
}

fn of_another(table: &Table, sheet: &[u8]) -> Option<String> {
    let own = sha256::hex(sheet);
    let other = || {
        format!(
            "these names belong to another sheet: SHA-256 {}; the one handed in has SHA-256 {own}",
            table.sheets.join(" or ")
        )
    };
    (!table.sheets.contains(&own)).then(other)
}

/// A sheet's trailer begins with a word of 1 to 3, so that every sheet has a zero byte; a text has none.
fn is_sheet(path: &Path, bytes: &[u8]) -> bool {
    match path.extension().and_then(|end| end.to_str()) {
        Some("sheet") => true,
        Some("grammar") => false,
        _ => bytes.contains(&0),
    }
}

/// The name of a file as a comment can show it, on one line.
fn shown(path: &Path) -> String {
    let Some(name) = path.file_name().filter(|name| *name != "-") else {
        return "standard input".to_owned();
    };
    let mut out = String::new();
    for letter in name.to_string_lossy().chars() {
        match letter.is_control() {
            true => out.extend(letter.escape_default()),
            false => out.push(letter),
        }
    }
    out
}

/// Of a file that is longer than any text and any sheet, only so much as tells that.
pub fn read_file(path: &Path) -> Result<Vec<u8>, Stop> {
    let bytes = match path.as_os_str() == "-" {
        true => first_part(io::stdin().lock()),
        false => File::open(path).and_then(first_part),
    };
    bytes.map_err(|fault| Stop::file("read", path, &fault))
}

fn first_part(from: impl Read) -> io::Result<Vec<u8>> {
    let mut bytes = Vec::new();
    from.take(MOST_TEXT as u64 + 1).read_to_end(&mut bytes)?;
    Ok(bytes)
}

fn text(bytes: &[u8]) -> Result<Text, Vec<Fault>> {
    let missing = |bytes: &[u8], expected: &str, found: &str| {
        let (line, column) = end_of(&String::from_utf8_lossy(bytes));
        let (expected, found) = (expected.to_owned(), found.to_owned());
        Err(vec![Fault {
            line,
            column,
            expected,
            found,
            ..Fault::default()
        }])
    };
    if bytes.len() > MOST_TEXT {
        let good = &bytes[..MOST_TEXT];
        return missing(good, "a text of at most 1048576 bytes", "more");
    }
    let text = notation::read(bytes)?;
    match text.grammar.sheet.rules.is_empty() {
        true => missing(bytes, "a rule", "the end of the text"),
        false => Ok(text),
    }
}
