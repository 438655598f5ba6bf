//! Pieces of grammars without ids: `number` hands those out at the end.

use crate::rng::Rng;
use crate::tree::{
    Alternative, Element, Kind, Label, OptionDecl, Reference, Rule, Semantics, quantifier,
};

/// Names by what they are for, so that a draft can be read. `number` may rename.
pub const TOKENS: u32 = 100;
pub const UNKNOWN: u32 = 150;
pub const LABELS: u32 = 200;
pub const OPTIONS: u32 = 300;

pub fn call(name: u32) -> Element {
    Element::new(Kind::Call {
        name,
        arguments: 0,
        precedence: 0,
    })
}

pub fn token(name: u32) -> Element {
    Element::new(Kind::Token(name))
}

pub fn other(carried: u32) -> Element {
    Element {
        carried,
        ..Element::new(Kind::Other)
    }
}

pub fn epsilon() -> Element {
    Element::new(Kind::Epsilon)
}

pub fn block(alternatives: Vec<Alternative>) -> Element {
    Element::new(Kind::Block(alternatives))
}

pub fn semantics(rng: &mut Rng, references: Vec<Reference>) -> Element {
    let body = Semantics { id: 0, references };
    Element::new(if rng.one_in(2) {
        Kind::Action(body)
    } else {
        Kind::Predicate(body)
    })
}

pub fn alternative(elements: Vec<Element>) -> Alternative {
    Alternative {
        elements,
        ..Alternative::default()
    }
}

pub fn rule(name: u32, alternatives: Vec<Alternative>) -> Rule {
    Rule {
        id: 0,
        name,
        flags: 0,
        alternatives,
    }
}

pub fn option(rng: &mut Rng) -> OptionDecl {
    OptionDecl {
        name: OPTIONS + rng.below(2) as u32,
        value: rng.between(1, 2) as u32,
    }
}

pub fn label(rng: &mut Rng) -> Option<Label> {
    Some(Label {
        id: 0,
        name: LABELS + rng.below(2) as u32,
    })
}

/// A terminal of a small alphabet.
pub fn symbol(rng: &mut Rng) -> Element {
    match rng.below(8) {
        0 => other(rng.between(1, 6) as u32),
        1 => call(UNKNOWN),
        _ => token(TOKENS + rng.below(4) as u32),
    }
}

pub fn quantified(element: Element, quantifier: u32) -> Element {
    Element {
        quantifier,
        ..element
    }
}

/// One of the six quantifiers other than "one".
pub fn some_quantifier(rng: &mut Rng) -> u32 {
    rng.between(
        quantifier::OPTIONAL as usize,
        quantifier::ONE_OR_MORE_NONGREEDY as usize,
    ) as u32
}

/// One of the four that let an element be absent.
pub fn skipping_quantifier(rng: &mut Rng) -> u32 {
    let last = quantifier::ZERO_OR_MORE_NONGREEDY;
    rng.between(quantifier::OPTIONAL as usize, last as usize) as u32
}
