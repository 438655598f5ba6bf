//! The 14 grammars of SPECIFICATION 15, and what it says of each.

use sheets::codec::{bytes_of, encode};
use sheets::parse::sheet;

/// What SPECIFICATION 15 says of a grammar.
#[derive(Clone, Copy, Debug, Eq, PartialEq)]
pub enum Says {
    /// These rules, read as a grammar of their own; steps where they are given.
    Gives(&'static str, Option<usize>),
    Unchanged,
    Refused(u32),
}

pub struct Example {
    pub name: &'static str,
    pub bytes: Vec<u8>,
    pub says: Says,
}

/// 13 and 14 have a part for each of their two sentences.
pub fn examples() -> Vec<Example> {
    let mut list: Vec<Example> = WRITTEN.iter().map(written).collect();
    list.push(made("13", thirteen(32), Says::Refused(7)));
    list.push(made("13-with-31", thirteen(31), Says::Refused(9)));
    list.push(made("14-28-bytes", vec![0; 28], Says::Refused(1)));
    list.push(made(
        "14-32-bytes",
        bytes_of(&[2, 0, 0, 0, 0, 0, 0, 0]),
        Says::Unchanged,
    ));
    list
}

/// Name, grammar in the notation, and what SPECIFICATION 15 says of it.
pub const WRITTEN: [(&str, &str, Says); 12] = [
    (
        "1",
        "e: a | INT; a: e PLUS e;",
        Says::Gives("e: e PLUS e | INT;", Some(1)),
    ),
    (
        "2",
        "%preserve a; e: a | INT; a: e PLUS e;",
        Says::Gives("%preserve a; e: e PLUS e | INT; a: e PLUS e;", Some(1)),
    ),
    ("3", "e: e PLUS e | INT;", Says::Unchanged),
    (
        "4",
        "e: a? DOTS | INT; a: e PLUS;",
        Says::Gives("e: e PLUS DOTS | DOTS | INT;", Some(2)),
    ),
    ("5", "e: a?? DOTS | INT; a: e PLUS;", Says::Unchanged),
    ("6", "e: a | INT; a: e n; n: ;", Says::Unchanged),
    ("7", "e: a | ; a: e PLUS;", Says::Unchanged),
    (
        "8",
        "e: a | INT?; a: e PLUS;",
        Says::Gives("e: e PLUS | INT?;", None),
    ),
    ("9", "e: a x=INT | INT; a: x=e PLUS;", Says::Unchanged),
    ("10", "e: a {$INT} | INT; a: e PLUS INT;", Says::Unchanged),
    (
        "11",
        "%preserve a; e: a | INT; a: e PLUS | NAME;",
        Says::Gives("%preserve a; a: a PLUS | INT PLUS | NAME;", None),
    ),
    (
        "12",
        "e: a | INT; a: a PLUS | e MINUS | NAME;",
        Says::Unchanged,
    ),
];

fn written((name, grammar, says): &(&'static str, &str, Says)) -> Example {
    made(name, bytes_of(&encode(&sheet(grammar))), *says)
}

fn made(name: &'static str, bytes: Vec<u8>, says: Says) -> Example {
    Example { name, bytes, says }
}

fn thirteen(in_a: usize) -> Vec<u8> {
    let repeat = |alternative: &str, many: usize| vec![alternative; many].join(" | ");
    let grammar = format!(
        "e: a | INT; a: {}; b: {};",
        repeat("b T", in_a),
        repeat("e T", 33)
    );
    bytes_of(&encode(&sheet(&grammar)))
}
