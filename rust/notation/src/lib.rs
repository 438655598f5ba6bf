//! Grammars as text, as trees and as sheets (SPECIFICATION 2).
//!
//! ```text
//! // A comment ends with its line.
//! %preserve a;
//! e: a? DOTS | # <o=1> x=INT {$INT $x.text} | ;
//! a: e[5] ( PLUS | .~7 )+? &{$e::depth} _;
//! ```
//!
//! | Written | What |
//! |---|---|
//! | `a`, `INT` | a call; a token, which begins with a capital |
//! | `?` `*` `+`, each with `?` behind it | quantifiers, greedy and not |
//! | `( .. )`, `_`, `.~7` | a block; epsilon; kind 5 with its carried number |
//! | `EOF` | the end of input, kind 7; no token has this name |
//! | `{$x $x.text $r::a}`, `&{..}` | an action, a predicate, each with its references |
//! | `x=INT`, `a[5]`, `INT<o=1>` | a label, arguments, options of an element |
//! | `a^3`, `a[5]?^3` | the precedence of a call, which touches what stands in front of it |
//! | `#`, `<o=1>` in front of an alternative | that it is labelled, its options; `#:` where a token comes first |
//! | `e !2:`, `e: -;` | a rule's flags; a rule or block without alternatives |
//! | `%kind lexer;` `%preserve a 9;` | the unit's kind; preserved rules by name, or by id |
//! | `%names e=1 INT=3;` | the numbers of names, in front of where they are used |
//! | `@7` behind a rule's name or a label, in front of an alternative, first in `{..}` | an id |
//! | `^7` in front of an element, behind a space | its id |
//! | `~7` in front of an alternative, behind an element | its carried number |
//! | `%counters 13 25 0 0 0;` | the counters |
//!
//! docs/NOTATION.md of the repository has all of it, with what to write for what ANTLR's own texts have.
//!
//! Names are numbered as they appear, from 1 on; every spelling is a name of its own. `r%7`, `T%7`, `x%7` and
//! `o%7` are the name of number 7, for sheets whose names have no text. An id left out is one more than the
//! last of its sort; alternatives begin at 10, elements at 20, rules at 1, the others at 0. A counter left out
//! is one more than the highest id of its sort, or 0 where there is none. A sheet has no place for attributes,
//! the `text` of `$x.text`; where they are not known `?` is written.
//!
//! ```
//! let grammar = notation::parse("e: a | INT; a: e PLUS e;").unwrap();
//! assert_eq!(grammar.sheet.bytes().len(), 288);
//! let fault = notation::parse("e: a | INT;\na e PLUS e;").unwrap_err();
//! assert_eq!(fault.to_string(), "line 2, column 3: expected `:`, found `e`");
//! ```
#![forbid(unsafe_code)]

mod codec;
mod fault;
mod names;
mod parse;
mod print;
mod scan;
mod table;
mod tree;
mod walk;

pub use fault::{Fault, Warning, shown};
pub use names::{Names, Place};
pub use parse::{Grammar, MOST_FAULTS, Spot, Text, parse, parse_bytes, read};
pub use print::{Printer, Style, names_text, print};
pub use scan::end_of;
pub use table::{Attributes, Table, parse_table};
pub use tree::{
    Alternative, Counters, Element, Kind, Label, OptionDecl, Reference, Rule, Semantics, Sheet,
};
pub use walk::{Node, Sort, alternatives, ids, least_counters};

/// Limits of a sheet (SPECIFICATION 2.15, 2.19), which the notation shares.
pub const MOST_RULES: usize = 128;
pub const MOST_DEPTH: usize = 8;
pub const MOST_NAME: u32 = 4_294_967_295;
