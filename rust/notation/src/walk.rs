//! Walks over every node of a sheet, outer before inner.

use crate::tree::{Alternative, Counters, Element, Kind, Sheet};

/// The sorts of ids, numbered as in the trail (SPECIFICATION 12.2).
#[derive(Clone, Copy, Debug, Eq, Ord, PartialEq, PartialOrd)]
pub enum Sort {
    Rule = 1,
    Alternative = 2,
    Element = 3,
    Label = 4,
    Action = 5,
    Predicate = 6,
}

/// A node with the number of blocks around it.
pub enum Node<'a> {
    Alternative(usize, &'a Alternative),
    Element(usize, &'a Element),
}

/// Shows every alternative and element of a list in reading order.
pub fn alternatives<'a>(list: &'a [Alternative], see: &mut impl FnMut(Node<'a>)) {
    nested(list, 0, see);
}

fn nested<'a>(list: &'a [Alternative], depth: usize, see: &mut impl FnMut(Node<'a>)) {
    for alternative in list {
        see(Node::Alternative(depth, alternative));
        for element in &alternative.elements {
            see(Node::Element(depth, element));
            if let Kind::Block(inner) = &element.kind {
                nested(inner, depth + 1, see);
            }
        }
    }
}

/// The id of every node, in reading order.
pub fn ids(sheet: &Sheet) -> Vec<(Sort, u32)> {
    let mut out = Vec::new();
    for rule in &sheet.rules {
        out.push((Sort::Rule, rule.id));
        alternatives(&rule.alternatives, &mut |node| match node {
            Node::Alternative(_, own) => out.push((Sort::Alternative, own.id)),
            Node::Element(_, own) => element_ids(own, &mut out),
        });
    }
    out
}

fn element_ids(element: &Element, out: &mut Vec<(Sort, u32)>) {
    out.push((Sort::Element, element.id));
    if let Some(label) = element.label {
        out.push((Sort::Label, label.id));
    }
    match &element.kind {
        Kind::Action(body) => out.push((Sort::Action, body.id)),
        Kind::Predicate(body) => out.push((Sort::Predicate, body.id)),
        _ => {}
    }
}

/// One above the highest id of each sort, 0 where there is none.
pub fn least_counters(sheet: &Sheet) -> Counters {
    let ids = ids(sheet);
    let above = |sort| {
        let own = ids.iter().filter(|(found, _)| *found == sort);
        own.map(|(_, id)| id.saturating_add(1)).max().unwrap_or(0)
    };
    Counters {
        alternative: above(Sort::Alternative),
        element: above(Sort::Element),
        label: above(Sort::Label),
        action: above(Sort::Action),
        predicate: above(Sort::Predicate),
    }
}
