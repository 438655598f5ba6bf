//! Twists that put the end of input (kind 7) into a draft, with any quantifier, label and options.

use super::draft::*;
use super::skeleton::Draft;
use crate::rng::Rng;
use crate::tree::{Alternative, Element, Kind};

fn end_of_input(rng: &mut Rng) -> Element {
    let mut made = Element {
        carried: rng.below(3) as u32,
        ..Element::new(Kind::EndOfInput)
    };
    if rng.one_in(2) {
        made.quantifier = some_quantifier(rng);
    }
    if rng.one_in(6) {
        made.label = label(rng);
    }
    if rng.one_in(8) {
        made.options.push(option(rng));
    }
    made
}

/// In front of a member, or of anything else.
pub fn front(draft: &mut Draft, rng: &mut Rng) {
    let target = draft.some_member(rng);
    let made = end_of_input(rng);
    let corners = draft.corners(target);
    let keeps = rng.one_in(2);
    if corners.is_empty() || rng.one_in(4) {
        draft.some_alternative(target, rng).elements.insert(0, made);
        return;
    }
    let place = *rng.pick(&corners);
    let alternatives = &mut draft.rule_mut(target).alternatives;
    let mut fronted = alternatives[place].clone();
    fronted.elements.insert(0, made);
    match keeps {
        true => alternatives.push(fronted),
        false => alternatives[place] = fronted,
    }
}

/// Alone in an alternative: of the hub, of another member, or of a rule that a member calls.
pub fn alone(draft: &mut Draft, rng: &mut Rng) {
    let made = alternative(vec![end_of_input(rng)]);
    if rng.one_in(3) {
        let name = draft.free_name();
        let mut alternatives = vec![made];
        if rng.one_in(2) {
            alternatives.push(alternative(vec![symbol(rng)]));
        }
        draft.rules.push(rule(name, alternatives));
        let target = draft.some_member(rng);
        let in_front = rng.one_in(2);
        let elements = &mut draft.some_alternative(target, rng).elements;
        let place = if in_front { 0 } else { elements.len() };
        elements.insert(place, call(name));
        return;
    }
    let target = match rng.one_in(2) {
        true => draft.hub(rng),
        false => draft.some_member(rng),
    };
    let alternatives = &mut draft.rule_mut(target).alternatives;
    let place = rng.below(alternatives.len() + 1);
    alternatives.insert(place, made);
}

/// Behind what an alternative begins with, and there alone or not.
pub fn tail(draft: &mut Draft, rng: &mut Rng) {
    let target = draft.some_member(rng);
    let many = rng.between(1, 2);
    let made: Vec<Element> = (0..many).map(|_| end_of_input(rng)).collect();
    let cut = rng.one_in(2);
    let elements = &mut draft.some_alternative(target, rng).elements;
    if cut {
        elements.truncate(1);
    }
    elements.extend(made);
}

/// In a block, which may have other alternatives: in front of a member, or at the end.
pub fn in_block(draft: &mut Draft, rng: &mut Rng) {
    let target = draft.some_member(rng);
    let mut inner = vec![alternative(vec![end_of_input(rng)])];
    if rng.one_in(2) {
        inner.push(alternative(vec![symbol(rng)]));
    }
    if rng.one_in(3) {
        inner = vec![alternative(vec![block(inner)])];
    }
    let mut made = block(inner);
    if rng.one_in(3) {
        made.quantifier = some_quantifier(rng);
    }
    let (in_front, cut) = (rng.one_in(2), rng.one_in(3));
    let elements = &mut draft.some_alternative(target, rng).elements;
    if cut {
        elements.truncate(1);
    }
    let place = if in_front { 0 } else { elements.len() };
    elements.insert(place, made);
}

/// Anywhere in a satellite, once or more, so that it is spliced.
pub fn satellite(draft: &mut Draft, rng: &mut Rng) {
    for _ in 0..rng.between(1, 3) {
        let satellite = draft.some_satellite(rng);
        let made = end_of_input(rng);
        let behind = !rng.one_in(4);
        let elements = &mut draft.some_alternative(satellite, rng).elements;
        let from = usize::from(behind && !elements.is_empty());
        let place = rng.between(from, elements.len());
        elements.insert(place, made);
    }
}

/// In place of some elements of any draft, and in front of some.
pub fn anywhere(draft: &mut Draft, rng: &mut Rng) {
    for own in &mut draft.rules {
        sprinkled(&mut own.alternatives, rng);
    }
}

fn sprinkled(list: &mut [Alternative], rng: &mut Rng) {
    for own in list {
        for element in &mut own.elements {
            if let Kind::Block(inner) = &mut element.kind {
                sprinkled(inner, rng);
            } else if rng.one_in(6) {
                *element = end_of_input(rng);
            }
        }
        if rng.one_in(6) {
            let place = rng.between(0, own.elements.len());
            own.elements.insert(place, end_of_input(rng));
        }
    }
}
