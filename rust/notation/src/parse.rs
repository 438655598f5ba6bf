//! A text of the notation, read into a sheet.

mod cursor;
mod element;
mod foreign;
mod rule;
mod unit;

use crate::fault::{Fault, Warning, lines_ended, lone_return};
use crate::names::Names;
use crate::scan::{Token, What, end_of, scan};
use crate::table::Attributes;
use crate::tree::Sheet;
use crate::walk::Sort;

/// The ids that come first, by sort.
pub(crate) const FIRST_IDS: [u32; 7] = [0, 1, 10, 20, 0, 0, 0];

/// The most faults that are told at once.
pub const MOST_FAULTS: usize = 20;

/// What a text says: a sheet, the table of its names, and what the sheet has no place for.
#[derive(Clone, Debug, Default, Eq, PartialEq)]
pub struct Grammar {
    pub sheet: Sheet,
    pub names: Names,
    pub attributes: Attributes,
}

/// A line and a column, from 1 on.
pub type Spot = (usize, usize);

/// A text that was read: what it says, where it says it, and what may be meant otherwise.
#[derive(Clone, Debug, Default)]
pub struct Text {
    pub grammar: Grammar,
    /// Of each node, in reading order, its sort, its id and where it begins.
    pub spots: Vec<(Sort, u32, Spot)>,
    /// Where the counters are written, if they are.
    pub counters: Option<Spot>,
    pub warnings: Vec<Warning>,
}

impl Text {
    /// Where the first node of a sort and id begins.
    pub fn spot(&self, sort: Sort, id: u32) -> Option<Spot> {
        let mut spots = self.spots.iter();
        let found = spots.find(|(own, number, _)| (*own, *number) == (sort, id));
        found.map(|(_, _, spot)| *spot)
    }
}

/// The grammar that a text says, or the first of its faults.
pub fn parse(text: &str) -> Result<Grammar, Fault> {
    read_text(text)
        .map(|text| text.grammar)
        .map_err(|faults| faults.into_iter().next().unwrap_or_default())
}

/// For bytes that may be no text.
pub fn parse_bytes(bytes: &[u8]) -> Result<Grammar, Fault> {
    parse(text_of(bytes)?)
}

/// What a text says, or what is wrong with it: up to [`MOST_FAULTS`] faults, in the order of the text.
///
/// ```
/// let faults = notation::read(b"e: 'x' | a;\na e;\n").unwrap_err();
/// let lines: Vec<usize> = faults.iter().map(|fault| fault.line).collect();
/// assert_eq!(lines, [1, 2]);
/// assert!(faults[0].to_string().contains("write the name of its token"));
/// ```
pub fn read(bytes: &[u8]) -> Result<Text, Vec<Fault>> {
    read_text(text_of(bytes).map_err(|fault| vec![fault])?)
}

fn read_text(text: &str) -> Result<Text, Vec<Fault>> {
    let ended = lines_ended(text);
    let (tokens, faults) = scan(&ended);
    let mut parser = Parser::of(&tokens);
    parser.faults = faults;
    let sheet = parser.sheet();
    let mut faults = parser.faults;
    if !faults.is_empty() {
        faults.sort_by_key(|fault| (fault.line, fault.column));
        faults.dedup_by_key(|fault| (fault.line, fault.column));
        faults.truncate(MOST_FAULTS);
        return Err(faults);
    }
    let mut warnings = parser.warnings;
    warnings.extend(lone_return(text).map(|place| of_return(&text[..place])));
    warnings.sort_by_key(|own| (own.line, own.column));
    Ok(Text {
        grammar: Grammar {
            sheet,
            names: parser.names,
            attributes: parser.attributes,
        },
        spots: parser.spots,
        counters: parser.counters,
        warnings,
    })
}

fn of_return(front: &str) -> Warning {
    let (line, column) = end_of(front);
    let text = "a carriage return without a line feed ends this line, and a comment in it; end lines with line feeds";
    Warning {
        line,
        column,
        text: text.to_owned(),
    }
}

pub(crate) fn text_of(bytes: &[u8]) -> Result<&str, Fault> {
    std::str::from_utf8(bytes).map_err(|fault| {
        let (good, bad) = bytes.split_at(fault.valid_up_to());
        let (line, column) = end_of(&String::from_utf8_lossy(good));
        Fault {
            line,
            column,
            expected: "text in UTF-8".to_owned(),
            found: format!("the byte {:#04x}", bad[0]),
            advice: String::new(),
        }
    })
}

pub(crate) struct Parser<'a> {
    tokens: &'a [Token<'a>],
    pub(crate) names: Names,
    next: [u32; 7],
    attributes: Attributes,
    spots: Vec<(Sort, u32, Spot)>,
    counters: Option<Spot>,
    faults: Vec<Fault>,
    warnings: Vec<Warning>,
    /// Names that stand behind `#`.
    behind_labels: Vec<Token<'a>>,
}

impl<'a> Parser<'a> {
    pub(crate) fn of(tokens: &'a [Token<'a>]) -> Self {
        let written = tokens.iter().filter_map(|token| match token.what {
            What::Numbered(_, number) => Some(number),
            _ => None,
        });
        Parser {
            tokens,
            names: Names::reserving(written),
            next: FIRST_IDS,
            attributes: Attributes::new(),
            spots: Vec::new(),
            counters: None,
            faults: Vec::new(),
            warnings: Vec::new(),
            behind_labels: Vec::new(),
        }
    }

    fn id(&mut self, mark: &str, sort: Sort, token: Token) -> Result<u32, Fault> {
        let id = if self.take(mark) {
            self.number()?
        } else {
            self.next[sort as usize]
        };
        self.next[sort as usize] = id.wrapping_add(1);
        self.spots.push((sort, id, (token.line, token.column)));
        Ok(id)
    }

    /// A fault behind which reading goes on.
    fn tell(&mut self, fault: Fault) {
        self.faults.push(fault);
    }

    fn warn(&mut self, token: Token, text: &str) {
        self.warnings.push(Warning {
            line: token.line,
            column: token.column,
            text: text.to_owned(),
        });
    }
}
