//! Twists on actions and predicates, and on what they refer to.

use super::draft::*;
use super::skeleton::Draft;
use crate::rng::Rng;
use crate::tree::{Element, Kind, Reference};

/// A name that an action can mean: a member, a token, a label, or nothing here.
fn some_name(draft: &Draft, rng: &mut Rng) -> u32 {
    match rng.below(6) {
        0 | 1 => draft.some_member(rng),
        2 | 3 => TOKENS + rng.below(4) as u32,
        4 => LABELS + rng.below(2) as u32,
        _ => 400,
    }
}

fn some_references(draft: &Draft, rng: &mut Rng) -> Vec<Reference> {
    let many = rng.below(3);
    let one = |rng: &mut Rng| Reference {
        kind: rng.below(3) as u32,
        name: some_name(draft, rng),
    };
    (0..many).map(|_| one(rng)).collect()
}

fn some_body(draft: &Draft, rng: &mut Rng) -> Element {
    let references = some_references(draft, rng);
    let body = semantics(rng, references);
    if rng.one_in(4) {
        return block(vec![alternative(vec![symbol(rng), body])]);
    }
    body
}

/// Actions and predicates of the hub, behind the corner or, seldom, in front.
pub fn references(draft: &mut Draft, rng: &mut Rng) {
    for _ in 0..rng.between(1, 2) {
        let hub = draft.hub(rng);
        let body = some_body(draft, rng);
        let in_front = rng.one_in(5);
        let elements = &mut draft.some_alternative(hub, rng).elements;
        let place = if in_front { 0 } else { elements.len() };
        elements.insert(place, body);
    }
}

/// A satellite with semantics cannot be inlined.
pub fn satellite_semantics(draft: &mut Draft, rng: &mut Rng) {
    let satellite = draft.some_satellite(rng);
    let body = some_body(draft, rng);
    draft.some_alternative(satellite, rng).elements.push(body);
}

/// The hub's action names what a satellite brings along.
pub fn captured(draft: &mut Draft, rng: &mut Rng) {
    let (hub, satellite) = (draft.hub(rng), draft.some_satellite(rng));
    let name = TOKENS + rng.below(4) as u32;
    let kind = rng.below(2) as u32;
    let body = semantics(rng, vec![Reference { kind, name }]);
    let corners = draft.corners(hub);
    if let Some(place) = corners.first() {
        draft.rule_mut(hub).alternatives[*place].elements.push(body);
    }
    draft
        .some_alternative(satellite, rng)
        .elements
        .push(token(name));
}

/// The hub's action names the very satellite that a splice removes.
pub fn dangling(draft: &mut Draft, rng: &mut Rng) {
    let hub = draft.hub(rng);
    let corners = draft.corners(hub);
    let Some(place) = corners.first() else {
        return;
    };
    let Kind::Call { name, .. } = draft.rule_mut(hub).alternatives[*place].elements[0].kind else {
        return;
    };
    let kind = rng.below(3) as u32;
    let body = semantics(rng, vec![Reference { kind, name }]);
    let nested = rng.one_in(3);
    let body = if nested {
        block(vec![alternative(vec![body])])
    } else {
        body
    };
    let elements = &mut draft.rule_mut(hub).alternatives[*place].elements;
    elements.push(body);
}
