//! Where the outermost parts of a sheet's rules stand, in words.

use std::collections::{HashMap, HashSet};

use sheets::form::Form;
use sheets::tree::{Alternative, Element, Kind, Rule, Semantics, Sheet};

/// Words in front of a rule's alternatives, of an alternative's options, of an element's options.
const RULE: usize = 4;
const ALTERNATIVE: usize = 5;
const ELEMENT: usize = 6;
/// Words of an option and of a reference.
const PAIR: usize = 2;

#[derive(Debug, Default)]
pub struct Places {
    /// By id.
    pub alternatives: HashMap<u32, usize>,
    /// By id, with the quantifier in the sheet.
    pub elements: HashMap<u32, (usize, u32)>,
    /// Of the alternatives' options.
    pub options: HashSet<usize>,
    /// The index of each rule, by id.
    pub rules: HashMap<u32, usize>,
}

impl Places {
    pub fn of(sheet: &Sheet) -> Places {
        let mut places = Places::default();
        let mut at = 0;
        for (index, rule) in sheet.rules.iter().enumerate() {
            places.rules.insert(rule.id, index);
            at = places.rule(rule, at);
        }
        places
    }

    /// Adds what stands from `at` on; returned is where it ends.
    fn rule(&mut self, rule: &Rule, at: usize) -> usize {
        let mut next = at + RULE;
        for own in &rule.alternatives {
            next = self.alternative(own, next);
        }
        next
    }

    fn alternative(&mut self, own: &Alternative, at: usize) -> usize {
        self.alternatives.insert(own.id, at);
        let mut next = at + ALTERNATIVE;
        for _ in &own.options {
            self.options.insert(next);
            next += PAIR;
        }
        for element in &own.elements {
            self.elements.insert(element.id, (next, element.quantifier));
            next += element_words(element);
        }
        next
    }
}

fn alternatives_words(list: &[Alternative]) -> usize {
    list.iter().map(alternative_words).sum()
}

fn alternative_words(own: &Alternative) -> usize {
    let elements: usize = own.elements.iter().map(element_words).sum();
    ALTERNATIVE + PAIR * own.options.len() + elements
}

fn element_words(element: &Element) -> usize {
    let body = |own: &Semantics| 2 + PAIR * own.references.len();
    let payload = match &element.kind {
        Kind::Epsilon | Kind::Other | Kind::EndOfInput => 0,
        Kind::Action(own) | Kind::Predicate(own) => body(own),
        Kind::Call { .. } => Form::NEWEST.call_words(),
        Kind::Token(_) => 1,
        Kind::Block(inner) => 1 + alternatives_words(inner),
    };
    ELEMENT + PAIR * element.options.len() + payload
}
