//! The listing (SPECIFICATION 16.2).

use std::fmt::Write as _;

use mutual_recursion::{Joined, Refusal};
use notation::{Element, Kind, Node, Sheet, alternatives};

pub fn listing(joined: &Joined) -> String {
    let mut out = format!("ok {} {}\n", joined.plans, joined.steps);
    let sheet = Sheet::of_bytes(&joined.sheet).expect("the pass hands back a sheet");
    for rule in &sheet.rules {
        let _ = writeln!(out, "r {} {}", rule.id, rule.name);
        alternatives(&rule.alternatives, &mut |node| {
            let _ = match node {
                Node::Alternative(depth, own) => writeln!(out, "a {depth} {}", own.id),
                Node::Element(depth, own) => writeln!(out, "e {depth} {}", element(own)),
            };
        });
    }
    for entry in &joined.trail {
        let (kind, reason) = (entry.kind.number(), entry.reason.number());
        let _ = writeln!(out, "t {kind} {} {reason} {}", entry.id, entry.owner);
    }
    out
}

pub fn refused(refusal: Refusal) -> String {
    format!("refused {}\n", refusal.number())
}

fn element(own: &Element) -> String {
    let name = match own.kind {
        Kind::Call { name, .. } | Kind::Token(name) => name,
        _ => 0,
    };
    let kind = own.kind.number();
    format!("{} {kind} {} {name}", own.id, own.quantifier)
}
