//! Sheets with names across the whole range, with long splices and with long lists: what a comparison
//! by a few bits or by a length would get wrong.

use std::collections::BTreeMap;

use super::draft::*;
use super::number::number;
use super::skeleton::Draft;
use super::twist::Twist;
use super::{binding, twist, twisted};
use crate::codec::MOST_NAME;
use crate::rng::Rng;
use crate::tree::{Element, Label, Reference, Sheet};
use crate::walk;

/// The twists in which names are compared.
const NAMED: [Twist; 6] = [
    twist::labels,
    twist::options,
    twist::blocks,
    binding::references,
    binding::captured,
    binding::dangling,
];

/// A cycle with names across the whole range, many of which differ by a power of two.
pub fn far_names(rng: &mut Rng) -> Sheet {
    renamed(rng, |taken, rng| {
        if taken.is_empty() || rng.one_in(2) {
            any_name(rng)
        } else {
            *rng.pick(taken) ^ (1 << rng.between(8, 31))
        }
    })
}

/// A cycle with names on either side of 65,536, and with several of one low half.
pub fn wide_names(rng: &mut Rng) -> Sheet {
    let low = *rng.pick(&[0, 1, 9, 65_535]);
    let high = [0, rng.between(1, 9) as u32, 65_535];
    renamed(rng, |_, rng| match rng.below(8) {
        0 => rng.between(1, 20) as u32,
        1 => rng.between(65_530, 65_545) as u32,
        2..=5 => *rng.pick(&high) << 16 | low,
        6 => MOST_NAME,
        _ => any_name(rng),
    })
}

fn any_name(rng: &mut Rng) -> u32 {
    1 + rng.below(MOST_NAME as usize) as u32
}

/// A cycle in which names are compared, each of them another one, drawn with those that are taken at hand.
fn renamed(rng: &mut Rng, mut draw: impl FnMut(&[u32], &mut Rng) -> u32) -> Sheet {
    let twist = *rng.pick(&NAMED);
    let mut sheet = twisted(twist, rng);
    let mut to = BTreeMap::new();
    let mut taken = vec![];
    for name in walk::names_in(&sheet) {
        let other = loop {
            let other = draw(&taken, rng);
            if other != 0 && !taken.contains(&other) {
                break other;
            }
        };
        taken.push(other);
        to.insert(name, other);
    }
    walk::rename(&mut sheet, |name| to[&name]);
    sheet
}

/// A satellite of 60 to 300 elements an alternative. Where it collides it does so with its last one.
pub fn long_splice(rng: &mut Rng) -> Sheet {
    let mut draft = hub_with_a_satellite();
    let collides = rng.below(3);
    for _ in 0..rng.between(1, 3) {
        let mut elements = vec![call(1)];
        elements.extend((2..rng.between(60, 300)).map(|_| token(TOKENS)));
        let mut last = token(TOKENS + 2);
        if collides == 1 {
            last = labelled(last, LABELS);
        }
        elements.push(last);
        draft.rule_mut(2).alternatives.push(alternative(elements));
    }
    let behind = match collides {
        0 => symbol(rng),
        1 => labelled(symbol(rng), LABELS),
        _ => semantics(rng, vec![referring_to(TOKENS + 2)]),
    };
    draft.rule_mut(1).alternatives[0].elements.push(behind);
    number(draft, rng)
}

/// A planned list of an odd length beside a power of two, or of a length between.
pub fn long_list(rng: &mut Rng) -> Sheet {
    let power = 1 << rng.between(2, 8);
    let between = rng.between(3, 300);
    let many = *rng.pick(&[power - 1, power + 1, between]);
    let mut draft = hub_with_a_satellite();
    let made = alternative(vec![call(1), token(TOKENS)]);
    draft.rule_mut(2).alternatives = vec![made; many - 1];
    number(draft, rng)
}

fn hub_with_a_satellite() -> Draft {
    let mut draft = Draft::new();
    let base = alternative(vec![token(TOKENS + 1)]);
    draft
        .rules
        .push(rule(1, vec![alternative(vec![call(2)]), base]));
    draft.rules.push(rule(2, Vec::new()));
    draft
}

fn labelled(element: Element, name: u32) -> Element {
    let label = Some(Label { id: 0, name });
    Element { label, ..element }
}

fn referring_to(name: u32) -> Reference {
    Reference { kind: 0, name }
}
