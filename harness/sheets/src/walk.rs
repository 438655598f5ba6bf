//! Walks over every node of a sheet, outer before inner.

use std::collections::BTreeSet;

use crate::tree::{Alternative, Counters, Element, Kind, OptionDecl, Rule, Sheet};

/// The sorts of ids, numbered as in the trail.
#[derive(Clone, Copy, Debug, Eq, Ord, PartialEq, PartialOrd)]
pub enum Sort {
    Rule = 1,
    Alternative = 2,
    Element = 3,
    Label = 4,
    Action = 5,
    Predicate = 6,
}

/// The counter of a sort; rules have none.
pub fn counter(counters: &Counters, sort: Sort) -> Option<u32> {
    match sort {
        Sort::Rule => None,
        Sort::Alternative => Some(counters.alternative),
        Sort::Element => Some(counters.element),
        Sort::Label => Some(counters.label),
        Sort::Action => Some(counters.action),
        Sort::Predicate => Some(counters.predicate),
    }
}

/// The id of every node, in reading order.
pub fn ids(sheet: &Sheet) -> Vec<(Sort, u32)> {
    let mut out = Vec::new();
    for rule in &sheet.rules {
        out.push((Sort::Rule, rule.id));
        alternatives(&rule.alternatives, 0, &mut |node| match node {
            Node::Alternative(_, alternative) => out.push((Sort::Alternative, alternative.id)),
            Node::Element(_, element) => element_ids(element, &mut out),
        });
    }
    out
}

fn element_ids(element: &Element, out: &mut Vec<(Sort, u32)>) {
    out.push((Sort::Element, element.id));
    if let Some(label) = element.label {
        out.push((Sort::Label, label.id));
    }
    match &element.kind {
        Kind::Action(body) => out.push((Sort::Action, body.id)),
        Kind::Predicate(body) => out.push((Sort::Predicate, body.id)),
        _ => {}
    }
}

/// A node with the number of blocks around it.
pub enum Node<'a> {
    Alternative(usize, &'a Alternative),
    Element(usize, &'a Element),
}

pub fn alternatives<'a>(list: &'a [Alternative], depth: usize, see: &mut impl FnMut(Node<'a>)) {
    for alternative in list {
        see(Node::Alternative(depth, alternative));
        for element in &alternative.elements {
            see(Node::Element(depth, element));
            if let Kind::Block(inner) = &element.kind {
                alternatives(inner, depth + 1, see);
            }
        }
    }
}

/// Every element of a rule, nested ones too.
pub fn elements(rule: &Rule) -> Vec<&Element> {
    let mut out = Vec::new();
    alternatives(&rule.alternatives, 0, &mut |node| {
        if let Node::Element(_, element) = node {
            out.push(element);
        }
    });
    out
}

/// Every element of the list, nested ones too, open to change.
pub fn edit(list: &mut [Alternative], change: &mut impl FnMut(&mut Element)) {
    for element in list.iter_mut().flat_map(|own| &mut own.elements) {
        change(element);
        if let Kind::Block(inner) = &mut element.kind {
            edit(inner, change);
        }
    }
}

/// The precedence of every call, nested ones too, in reading order and open to change.
pub fn precedences(sheet: &mut Sheet, change: &mut impl FnMut(&mut u32)) {
    for rule in &mut sheet.rules {
        edit(&mut rule.alternatives, &mut |element| {
            if let Kind::Call { precedence, .. } = &mut element.kind {
                change(precedence);
            }
        });
    }
}

pub fn has_precedences(sheet: &Sheet) -> bool {
    without_precedences(sheet) != *sheet
}

/// The sheet without any.
pub fn without_precedences(sheet: &Sheet) -> Sheet {
    let mut made = sheet.clone();
    precedences(&mut made, &mut |precedence| *precedence = 0);
    made
}

/// What a word is that says nothing by its size: a name, by where it stands, or a carried number.
#[derive(Clone, Copy, Debug, Eq, PartialEq)]
pub enum Mark {
    Rule,
    Option,
    Label,
    Reference,
    Call,
    Token,
    Carried,
}

/// Every name and every carried number of a sheet, in the order of its words, open to change. The 0 of "no label" is no name.
pub fn marks(sheet: &mut Sheet, change: &mut impl FnMut(Mark, &mut u32)) {
    for rule in &mut sheet.rules {
        change(Mark::Rule, &mut rule.name);
        marks_of_all(&mut rule.alternatives, change);
    }
}

/// The names that stand in a sheet, wherever they stand.
pub fn names_in(sheet: &Sheet) -> BTreeSet<u32> {
    let mut names = BTreeSet::new();
    marks(&mut sheet.clone(), &mut |mark, word| {
        if mark != Mark::Carried {
            names.insert(*word);
        }
    });
    names
}

/// Every name in place of another, by one function for names of every sort.
pub fn rename(sheet: &mut Sheet, to: impl Fn(u32) -> u32) {
    marks(sheet, &mut |mark, word| {
        if mark != Mark::Carried {
            *word = to(*word);
        }
    });
}

/// Whether two of its names have one remainder modulo 65,536.
pub fn shares_a_remainder(sheet: &Sheet) -> bool {
    let names = names_in(sheet);
    let remainders: BTreeSet<u32> = names.iter().map(|name| name % 65_536).collect();
    remainders.len() < names.len()
}

fn marks_of_all(list: &mut [Alternative], change: &mut impl FnMut(Mark, &mut u32)) {
    for own in list {
        change(Mark::Carried, &mut own.carried);
        marks_of_options(&mut own.options, change);
        for element in &mut own.elements {
            marks_of_element(element, change);
        }
    }
}

fn marks_of_options(options: &mut [OptionDecl], change: &mut impl FnMut(Mark, &mut u32)) {
    for option in options {
        change(Mark::Option, &mut option.name);
    }
}

fn marks_of_element(element: &mut Element, change: &mut impl FnMut(Mark, &mut u32)) {
    change(Mark::Carried, &mut element.carried);
    if let Some(label) = &mut element.label {
        change(Mark::Label, &mut label.name);
    }
    marks_of_options(&mut element.options, change);
    match &mut element.kind {
        Kind::Epsilon | Kind::Other | Kind::EndOfInput => {}
        Kind::Action(body) | Kind::Predicate(body) => {
            for reference in &mut body.references {
                change(Mark::Reference, &mut reference.name);
            }
        }
        Kind::Call { name, .. } => change(Mark::Call, name),
        Kind::Token(name) => change(Mark::Token, name),
        Kind::Block(inner) => marks_of_all(inner, change),
    }
}
