//! Answers as text.

use std::fmt::Write as _;

use sheets::tree::{Element, Kind, Sheet};
use sheets::walk::{self, Node};

use crate::{Answer, Done, Entry};

/// The listing (SPECIFICATION 16.2).
pub fn listing(answer: &Answer) -> String {
    let done = match answer {
        Ok(done) => done,
        Err(refusal) => return format!("refused {refusal}\n"),
    };
    let mut out = format!("ok {} {}\n", done.plans(), done.steps());
    nodes(&done.result, &mut out);
    for entry in &done.trail {
        let _ = writeln!(out, "t {}", words(entry));
    }
    out
}

fn nodes(sheet: &Sheet, out: &mut String) {
    for rule in &sheet.rules {
        let _ = writeln!(out, "r {} {}", rule.id, rule.name);
        walk::alternatives(&rule.alternatives, 0, &mut |node| {
            let _ = match node {
                Node::Alternative(depth, own) => writeln!(out, "a {depth} {}", own.id),
                Node::Element(depth, own) => writeln!(out, "e {depth} {}", element(own)),
            };
        });
    }
}

fn element(own: &Element) -> String {
    let name = match own.kind {
        Kind::Call { name, .. } | Kind::Token(name) => name,
        _ => 0,
    };
    format!("{} {} {} {name}", own.id, own.kind.number(), own.quantifier)
}

pub fn words(words: &[u32]) -> String {
    words
        .iter()
        .map(u32::to_string)
        .collect::<Vec<_>>()
        .join(" ")
}

/// One line `o kind id` and then pairs of reason and owner for each node with a list.
pub fn origins(done: &Done) -> String {
    let mut out = String::new();
    for node in &done.origins {
        let _ = write!(out, "o {} {}", node.sort as u32, node.id);
        for (reason, owner) in &node.list {
            let _ = write!(out, " {reason} {owner}");
        }
        out.push('\n');
    }
    out
}

/// One line `c clause` and then the members for each cycle that is still there.
pub fn clauses(done: &Done) -> String {
    let mut out = String::new();
    for decline in &done.declined {
        let _ = writeln!(out, "c {} {}", decline.clause, words(&decline.cycle));
    }
    out
}

/// The trail's words.
pub fn trail(entries: &[Entry]) -> Vec<u32> {
    entries.iter().flatten().copied().collect()
}

/// Everything: listing, result and trail as words, origins, clauses.
pub fn full(answer: &Answer) -> String {
    let mut out = listing(answer);
    let Ok(done) = answer else {
        return out;
    };
    let _ = writeln!(out, "result {}", words(&done.words()));
    let _ = writeln!(out, "trail {}", words(&trail(&done.trail)));
    out + &origins(done) + &clauses(done)
}
