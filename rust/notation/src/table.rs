//! A table of names as a file of its own, for a sheet.

use std::collections::BTreeMap;
use std::fmt::Write as _;

use crate::fault::Fault;
use crate::names::Names;
use crate::parse::{Parser, text_of};
use crate::print::names_text;
use crate::scan::{What, scan};
use crate::walk::Sort;

/// Of each action and predicate, by sort and id, the attributes of its references: `text` of `$x.text`, nothing of
/// `$x` and of an attribute that is not known.
pub type Attributes = BTreeMap<(Sort, u32), Vec<String>>;

/// What stands in front of a digest, since a name does not begin with a digit.
const DIGEST: &str = "sha256_";
const HEX_DIGITS: usize = 64;

/// What a sheet has no place for, with the sheets to which it belongs.
///
/// ```
/// let grammar = notation::parse("e: x=INT {$x.text};").unwrap();
/// let digest = "0123456789abcdef".repeat(4);
/// let table = notation::Table {
///     sheets: vec![digest.clone()],
///     names: grammar.names,
///     attributes: grammar.attributes,
/// };
/// let text = table.text();
/// assert!(text.starts_with(&format!("%sheet sha256_{digest};\n%names\n    e=1\n")));
/// assert!(text.ends_with("%attributes action 0 text;\n"));
/// assert_eq!(notation::parse_table(text.as_bytes()), Ok(table));
/// ```
#[derive(Clone, Debug, Default, Eq, PartialEq)]
pub struct Table {
    /// The SHA-256 of each of them, in hexadecimal digits.
    pub sheets: Vec<String>,
    pub names: Names,
    pub attributes: Attributes,
}

impl Table {
    pub fn text(&self) -> String {
        let mut out = String::new();
        for digest in &self.sheets {
            let _ = writeln!(out, "%sheet {DIGEST}{digest};");
        }
        out += &names_text(&self.names);
        for ((sort, id), texts) in &self.attributes {
            let _ = write!(out, "%attributes {} {id}", word_of(*sort));
            for text in texts {
                let text = if text.is_empty() { "?" } else { text };
                let _ = write!(out, " {text}");
            }
            out.push_str(";\n");
        }
        out
    }
}

fn word_of(sort: Sort) -> &'static str {
    match sort {
        Sort::Predicate => "predicate",
        _ => "action",
    }
}

/// A table in the form that [`Table::text`] has. One that names no sheet is none.
pub fn parse_table(bytes: &[u8]) -> Result<Table, Fault> {
    let (tokens, faults) = scan(text_of(bytes)?);
    if let Some(fault) = faults.into_iter().next() {
        return Err(fault);
    }
    let mut parser = Parser::of(&tokens);
    let mut table = Table::default();
    loop {
        match parser.ahead().what {
            What::Directive("%sheet") => table.sheets.push(parser.digest()?),
            What::Directive("%names") => parser.names()?,
            What::Directive("%attributes") => {
                let (key, texts) = parser.attributes_of()?;
                table.attributes.insert(key, texts);
            }
            What::End if !table.sheets.is_empty() => break,
            What::End => {
                return Err(parser.fault("`%sheet` and the digest of the sheet that has the names"));
            }
            _ => return Err(parser.fault("`%sheet`, `%names` or `%attributes`")),
        }
    }
    table.names = parser.names;
    Ok(table)
}

impl Parser<'_> {
    fn digest(&mut self) -> Result<String, Fault> {
        self.skip();
        let token = self.ahead();
        let expected = "`sha256_` and 64 hexadecimal digits";
        let text = self.name(expected)?.strip_prefix(DIGEST);
        let is_digit = |letter: char| matches!(letter, '0'..='9' | 'a'..='f');
        let digest = text.filter(|text| text.len() == HEX_DIGITS && text.chars().all(is_digit));
        let digest = digest.ok_or_else(|| token.fault(expected))?.to_owned();
        self.expect(";")?;
        Ok(digest)
    }

    fn attributes_of(&mut self) -> Result<((Sort, u32), Vec<String>), Fault> {
        self.skip();
        let sort = match self.ahead().what {
            What::Name("action") => Sort::Action,
            What::Name("predicate") => Sort::Predicate,
            _ => return Err(self.fault("`action` or `predicate`")),
        };
        self.skip();
        let id = self.number()?;
        let mut texts = Vec::new();
        while !self.take(";") {
            let text = match self.take("?") {
                true => "",
                false => self.name("an attribute's name, `?` or `;`")?,
            };
            texts.push(text.to_owned());
        }
        Ok(((sort, id), texts))
    }
}
