//! Grammars without a plan behind them: rules, alternatives and elements at random.

use super::draft::*;
use super::skeleton::Draft;
use crate::rng::Rng;
use crate::tree::{Alternative, Element};

pub fn wild(rng: &mut Rng) -> Draft {
    let mut draft = Draft::new();
    let rules = rng.between(2, 4);
    for name in 1..=rules as u32 {
        let many = rng.between(1, 3);
        let made = (0..many).map(|_| some_alternative(rules, 2, rng)).collect();
        draft.rules.push(rule(name, made));
    }
    for name in 1..=rules as u32 {
        if rng.one_in(6) {
            draft.preserved.push(name);
        }
    }
    draft
}

/// Two or three rules that mostly start with a call: small, and often a cycle.
pub fn tiny(rng: &mut Rng) -> Draft {
    let mut draft = Draft::new();
    let rules = *rng.pick(&[2, 2, 2, 3]);
    for name in 1..=rules as u32 {
        let many = *rng.pick(&[1, 2, 2, 3]);
        let made = (0..many).map(|_| tiny_alternative(rules, rng)).collect();
        draft.rules.push(rule(name, made));
        if rng.one_in(6) {
            draft.preserved.push(name);
        }
    }
    draft
}

fn tiny_alternative(rules: usize, rng: &mut Rng) -> Alternative {
    let first = match rng.below(8) {
        0 => return some_alternative(rules, 1, rng),
        1..3 => symbol(rng),
        _ => call(rng.between(1, rules) as u32),
    };
    let mut elements = vec![first];
    for _ in 0..*rng.pick(&[0, 1, 1, 1, 2]) {
        let next = if rng.one_in(4) {
            some_element(rules, 1, rng)
        } else {
            symbol(rng)
        };
        elements.push(next);
    }
    for element in &mut elements {
        if rng.one_in(8) {
            element.quantifier = some_quantifier(rng);
        }
    }
    alternative(elements)
}

fn some_alternative(rules: usize, depth: usize, rng: &mut Rng) -> Alternative {
    let many = *rng.pick(&[0, 1, 1, 2, 2, 2, 3]);
    alternative((0..many).map(|_| some_element(rules, depth, rng)).collect())
}

fn some_element(rules: usize, depth: usize, rng: &mut Rng) -> Element {
    let made = match rng.below(20) {
        0..9 => call(rng.between(1, rules) as u32),
        9..17 => symbol(rng),
        17 => epsilon(),
        18 => semantics(rng, vec![]),
        _ if depth == 0 => symbol(rng),
        _ => some_block(rules, depth - 1, rng),
    };
    if rng.one_in(4) {
        quantified(made, some_quantifier(rng))
    } else {
        made
    }
}

fn some_block(rules: usize, depth: usize, rng: &mut Rng) -> Element {
    let many = rng.between(0, 2);
    block(
        (0..many)
            .map(|_| some_alternative(rules, depth, rng))
            .collect(),
    )
}
