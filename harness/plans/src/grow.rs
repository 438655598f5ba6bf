//! Grammars with cycles to plan: knots of few rules with all that a plan may meet, long chains, lists near their limits.

mod knot;
mod large;

use reader::grow::number;
use reader::random::Random;
use reader::tree::{Alternative, Element, Payload, Rule, Sheet, Unit};

/// The words of the largest sheet.
const MOST: usize = 8_192;

/// A unit that a reader must take.
pub fn unit(random: &mut Random) -> Unit {
    loop {
        let unit = any(random);
        if Sheet::of(&unit).words.len() <= MOST {
            return unit;
        }
    }
}

fn any(random: &mut Random) -> Unit {
    let mut rules = match random.below(24) {
        0 => large::chain(random),
        1 => large::wide(random),
        2 => large::looped(random),
        3 => match random.below(4) {
            0 => large::hub(random),
            _ => large::splice(random),
        },
        _ => knot::rules(random),
    };
    rename(&mut rules, random);
    let ids = match random.below(3) {
        0 => (1..=rules.len() as u32).collect(),
        1 => (1..=rules.len() as u32).rev().collect(),
        _ => random.distinct(rules.len(), u32::MAX),
    };
    for (rule, id) in rules.iter_mut().zip(ids) {
        rule.id = id;
    }
    if random.once_in(2) {
        shuffle(&mut rules, random);
    }
    let mut unit = Unit {
        kind: [2, 2, 2, 2, 1, 3][random.below(6)],
        preserved: preserved(&rules, random),
        rules,
        ..Unit::default()
    };
    number(&mut unit, random);
    unit
}

/// Some rules' ids, and some of no rule, rising.
fn preserved(rules: &[Rule], random: &mut Random) -> Vec<u32> {
    if !random.once_in(3) {
        return Vec::new();
    }
    let few = random.within(2, 9);
    let ids = rules.iter().map(|rule| rule.id);
    let mut ids: Vec<u32> = ids.filter(|_| random.once_in(few)).collect();
    ids.extend((0..random.below(3)).map(|_| random.any()));
    ids.sort_unstable();
    ids.dedup();
    ids
}

/// Every second time other names in place of those below 256, the same for the same.
fn rename(rules: &mut [Rule], random: &mut Random) {
    if random.once_in(2) {
        return;
    }
    let names = random.names(256);
    for rule in rules {
        rule.name = names[rule.name as usize];
        each_name(&mut rule.alternatives, &mut |name| {
            *name = names[*name as usize];
        });
    }
}

fn each_name(alternatives: &mut [Alternative], see: &mut dyn FnMut(&mut u32)) {
    for element in alternatives.iter_mut().flat_map(|own| &mut own.elements) {
        if let Some((_, name)) = &mut element.label {
            see(name);
        }
        match &mut element.payload {
            Payload::Call(name, ..) | Payload::Token(name) => see(name),
            Payload::Action(_, all) | Payload::Predicate(_, all) => {
                all.iter_mut().for_each(|(_, name)| see(name));
            }
            Payload::Block(inner) => each_name(inner, see),
            Payload::Epsilon | Payload::Other | Payload::EndOfInput => {}
        }
    }
}

fn shuffle<T>(items: &mut [T], random: &mut Random) {
    for last in (1..items.len()).rev() {
        items.swap(last, random.below(last + 1));
    }
}

fn element(payload: Payload) -> Element {
    Element {
        id: 0,
        carried: 0,
        quantifier: 0,
        label: None,
        options: Vec::new(),
        payload,
    }
}

fn call(name: u32) -> Element {
    element(Payload::Call(name, 0, 0))
}

fn token(name: u32) -> Element {
    element(Payload::Token(name))
}

fn alternative(elements: Vec<Element>) -> Alternative {
    Alternative {
        elements,
        ..Alternative::default()
    }
}

fn rule(name: u32, alternatives: Vec<Alternative>) -> Rule {
    Rule {
        name,
        alternatives,
        ..Rule::default()
    }
}
