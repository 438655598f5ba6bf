//! The stored answers: which sheets, and how a record is written.
//!
//! A record is `sheet` with its name, `grammar` where the sheet is written in the
//! notation, `in` with the sheet's words (`hex` where the bytes are no words), the
//! listing, `out` with the result's words (`out same` for those of `in`), a line
//! `o` for each origin list, a line `c` for each cycle that is still there with the
//! clause that stopped it, and an empty line.

use std::fmt::Write as _;

use sheets::codec::{self, bytes_of, encode, encode_in, words_of};
use sheets::form::Form;
use sheets::generate;
use sheets::parse::sheet;
use sheets::walk::without_precedences;

use crate::ends::ENDS;
use crate::folded::Reading;
use crate::written::WRITTEN;
use crate::{Answer, ask, ask_by_textbook, edges, examples, text};

/// A file of `answers/` and what is in it.
pub struct File {
    pub name: &'static str,
    pub reading: Reading,
    pub parts: &'static [Part],
}

/// The first `sheets` seeds of a profile whose sheet has at most `words` words in the first form: the same ones in every form.
pub enum Part {
    Examples,
    Written,
    Edges,
    Ends,
    Seeds {
        profile: &'static str,
        sheets: usize,
        words: usize,
    },
}

const fn seeds(profile: &'static str, sheets: usize, words: usize) -> Part {
    Part::Seeds {
        profile,
        sheets,
        words,
    }
}

const fn file(name: &'static str, parts: &'static [Part]) -> File {
    File {
        name,
        reading: Reading::Original,
        parts,
    }
}

/// Sheets with the end of input, whose answers are stored for both readings of left corners.
const WITH_ENDS: &[Part] = &[
    Part::Ends,
    seeds("end-front", 16, 120),
    seeds("end-alone", 12, 120),
    seeds("end-tail", 12, 120),
    seeds("end-block", 16, 140),
    seeds("end-satellite", 16, 120),
    seeds("end-anywhere", 16, 110),
];

pub const FILES: [File; 9] = [
    file("examples.txt", &[Part::Examples]),
    file("written.txt", &[Part::Written]),
    file(
        "small.txt",
        &[
            seeds("tiny", 60, 90),
            seeds("wild", 40, 110),
            seeds("plain", 20, 90),
        ],
    ),
    file(
        "cycles.txt",
        &[
            seeds("several", 20, 330),
            seeds("nullable-front", 20, 150),
            seeds("nullable-behind", 15, 150),
            seeds("nullable-hub", 20, 140),
            seeds("optional-member", 30, 130),
            seeds("blocks", 25, 190),
            seeds("labels", 20, 140),
            seeds("references", 30, 170),
            seeds("captured", 12, 140),
            seeds("dangling", 15, 140),
            seeds("satellite-semantics", 10, 140),
            seeds("options", 25, 150),
            seeds("preserved", 20, 140),
            seeds("tail-satellite", 20, 140),
            seeds("flags", 20, 130),
            seeds("hub-arguments", 10, 130),
            seeds("unknown", 15, 130),
            seeds("optional-symbol", 20, 160),
            seeds("arguments", 20, 130),
            seeds("satellite-loop", 12, 140),
            seeds("no-base", 15, 120),
            seeds("outside", 15, 150),
            seeds("outside-base", 15, 150),
            seeds("hollow", 20, 130),
            seeds("long-chain", 12, 600),
            seeds("precedences", 30, 150),
        ],
    ),
    file(
        "limits.txt",
        &[
            seeds("near-7", 26, 1_000),
            seeds("near-8", 70, 300),
            seeds("near-9", 10, 400),
            seeds("just-9", 3, 8_192),
        ],
    ),
    file("edges.txt", &[Part::Edges]),
    file("reading.txt", &[seeds("damaged", 90, 200)]),
    file("ends.txt", WITH_ENDS),
    File {
        name: "textbook/ends.txt",
        reading: Reading::Textbook,
        parts: WITH_ENDS,
    },
];

/// Characters of a grammar that is written beside its sheet.
const LONGEST_GRAMMAR: usize = 400;

/// A sheet to be asked about.
pub struct Question {
    pub name: String,
    pub grammar: Option<String>,
    pub bytes: Vec<u8>,
}

impl File {
    pub fn questions(&self) -> Vec<Question> {
        self.parts.iter().flat_map(Part::questions).collect()
    }

    pub fn text(&self) -> String {
        let ask = match self.reading {
            Reading::Original => ask,
            Reading::Textbook => ask_by_textbook,
        };
        self.questions()
            .iter()
            .map(|asked| record(asked, &ask(&asked.bytes)))
            .collect()
    }
}

impl Part {
    fn questions(&self) -> Vec<Question> {
        match self {
            Part::Examples => examples::examples().into_iter().map(from_example).collect(),
            Part::Written => WRITTEN.iter().enumerate().map(from_written).collect(),
            Part::Edges => edges::edges().into_iter().map(from_edge).collect(),
            Part::Ends => ENDS.iter().enumerate().map(from_ends).collect(),
            Part::Seeds {
                profile,
                sheets,
                words,
            } => from_seeds(profile, *sheets, *words),
        }
    }
}

fn from_example(example: examples::Example) -> Question {
    Question {
        name: format!("example {}", example.name),
        grammar: None,
        bytes: example.bytes,
    }
}

fn from_written((place, grammar): (usize, &&'static str)) -> Question {
    from_grammar(format!("written {}", place + 1), grammar)
}

fn from_ends((place, grammar): (usize, &&'static str)) -> Question {
    from_grammar(format!("end of input {}", place + 1), grammar)
}

fn from_grammar(name: String, grammar: &str) -> Question {
    Question {
        name,
        grammar: Some(grammar.to_owned()),
        bytes: bytes_of(&encode(&sheet(grammar))),
    }
}

/// A long grammar is not told twice: `sheets show` prints it from the sheet.
fn from_edge((name, grammar): edges::Edge) -> Question {
    let bytes = bytes_of(&encode(&sheet(&grammar)));
    let grammar = Some(grammar).filter(|text| text.len() <= LONGEST_GRAMMAR);
    Question {
        name,
        grammar,
        bytes,
    }
}

fn from_seeds(name: &str, sheets: usize, words: usize) -> Vec<Question> {
    let made = |seed| generate::bytes(name, seed).expect("the files name profiles that exist");
    let all = (0..).map(|seed| (seed, made(seed)));
    let small = all
        .filter(|(_, bytes)| words_in_first_form(bytes) <= words)
        .take(sheets);
    small
        .map(|(seed, bytes)| Question {
            name: format!("{name} {seed}"),
            grammar: None,
            bytes,
        })
        .collect()
}

/// Bytes that are no records have as many in each form.
fn words_in_first_form(bytes: &[u8]) -> usize {
    match codec::tree(bytes) {
        Ok(sheet) => encode_in(Form::FIRST, &without_precedences(&sheet)).len(),
        Err(_) => bytes.len().div_ceil(4),
    }
}

pub fn record(asked: &Question, answer: &Answer) -> String {
    let mut out = format!("sheet {}\n", asked.name);
    if let Some(grammar) = &asked.grammar {
        let _ = writeln!(out, "grammar {grammar}");
    }
    let words = words_of(&asked.bytes);
    if asked.bytes.len().is_multiple_of(4) {
        let _ = writeln!(out, "{}", format!("in {}", text::words(&words)).trim_end());
    } else {
        let hex: String = asked
            .bytes
            .iter()
            .map(|byte| format!("{byte:02x}"))
            .collect();
        let _ = writeln!(out, "hex {hex}");
    }
    out.push_str(&text::listing(answer));
    if let Ok(done) = answer {
        let result = done.words();
        let result = if result == words {
            "same".to_owned()
        } else {
            text::words(&result)
        };
        let _ = writeln!(out, "out {result}");
        out.push_str(&text::origins(done));
        out.push_str(&text::clauses(done));
    }
    out.push('\n');
    out
}

/// What the stored answers hold, counted from their text.
#[derive(Clone, Debug, Default, Eq, PartialEq)]
pub struct Counts {
    pub sheets: usize,
    pub joined: usize,
    /// By the number of the refusal.
    pub refused: [usize; 10],
    /// Cycles still there at the end, by clause.
    pub clauses: [usize; 12],
}

pub fn count(text: &str, counts: &mut Counts) {
    for line in text.lines() {
        let words: Vec<&str> = line.split(' ').collect();
        match words[..] {
            ["sheet", ..] => counts.sheets += 1,
            ["ok", plans, _] if plans != "0" => counts.joined += 1,
            ["refused", number] => counts.refused[place(number)] += 1,
            ["c", clause, ..] => counts.clauses[place(clause)] += 1,
            _ => {}
        }
    }
}

fn place(number: &str) -> usize {
    number.parse().expect("records are written by `record`")
}
