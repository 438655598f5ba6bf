//! Twists: each puts one thing that matters to the pass into a draft.

use super::draft::*;
use super::skeleton::{Draft, add_cycle};
use crate::rng::Rng;
use crate::tree::{Element, Kind, quantifier};

pub type Twist = fn(&mut Draft, &mut Rng);

/// A rule that can be empty, in one of its forms.
fn nullable_rule(draft: &mut Draft, rng: &mut Rng) -> u32 {
    let name = draft.free_name();
    let alternatives = match rng.below(4) {
        0 => vec![alternative(vec![])],
        1 => vec![alternative(vec![symbol(rng)]), alternative(vec![epsilon()])],
        2 => vec![alternative(vec![quantified(
            symbol(rng),
            skipping_quantifier(rng),
        )])],
        _ => vec![alternative(vec![symbol(rng)]), alternative(vec![])],
    };
    draft.rules.push(rule(name, alternatives));
    name
}

pub fn nullable_front(draft: &mut Draft, rng: &mut Rng) {
    let name = nullable_rule(draft, rng);
    let target = draft.some_member(rng);
    draft
        .some_alternative(target, rng)
        .elements
        .insert(0, call(name));
}

pub fn nullable_behind(draft: &mut Draft, rng: &mut Rng) {
    let name = nullable_rule(draft, rng);
    let target = draft.some_member(rng);
    let cut = rng.one_in(2);
    let elements = &mut draft.some_alternative(target, rng).elements;
    if cut {
        elements.truncate(1);
    }
    elements.push(call(name));
}

pub fn nullable_hub(draft: &mut Draft, rng: &mut Rng) {
    let hub = draft.hub(rng);
    let made = match rng.below(4) {
        0 => vec![],
        1 => vec![call(nullable_rule(draft, rng))],
        _ => vec![quantified(symbol(rng), skipping_quantifier(rng))],
    };
    let alternatives = &mut draft.rule_mut(hub).alternatives;
    let place = rng.below(alternatives.len() + 1);
    alternatives.insert(place, alternative(made));
}

/// A greedy optional member more often than the other quantifiers.
fn member_quantifier(rng: &mut Rng) -> u32 {
    if rng.one_in(2) {
        quantifier::OPTIONAL
    } else {
        some_quantifier(rng)
    }
}

pub fn optional_member(draft: &mut Draft, rng: &mut Rng) {
    let target = draft.some_member(rng);
    let member = draft.some_member(rng);
    let found = draft.corners(target);
    let mark = member_quantifier(rng);
    if found.is_empty() || rng.one_in(3) {
        let made = quantified(call(member), mark);
        let elements = &mut draft.some_alternative(target, rng).elements;
        let place = rng.below(elements.len() + 1);
        elements.insert(place, made);
        return;
    }
    let place = *rng.pick(&found);
    draft.rule_mut(target).alternatives[place].elements[0].quantifier = mark;
}

/// The number of blocks that stand in one another.
fn depth(element: &Element) -> usize {
    let Kind::Block(inner) = &element.kind else {
        return 0;
    };
    let elements = inner.iter().flat_map(|alternative| &alternative.elements);
    1 + elements.map(depth).max().unwrap_or(0)
}

/// Wraps an element that may be a member, up to eight blocks deep.
pub fn blocks(draft: &mut Draft, rng: &mut Rng) {
    let target = draft.some_member(rng);
    let beside = symbol(rng);
    let wanted = if rng.one_in(5) {
        rng.between(3, 8)
    } else {
        rng.between(1, 2)
    };
    let outer = if rng.one_in(2) {
        some_quantifier(rng)
    } else {
        quantifier::ONE
    };
    let keep_first = rng.one_in(2);
    let elements = &mut draft.some_alternative(target, rng).elements;
    if elements.is_empty() {
        elements.push(beside.clone());
    }
    let place = if keep_first { elements.len() - 1 } else { 0 };
    let mut made = elements.remove(place);
    for _ in depth(&made)..wanted {
        let mut inside = vec![alternative(vec![made])];
        if rng.one_in(3) {
            inside.push(alternative(vec![beside.clone()]));
        }
        made = block(inside);
    }
    elements.insert(place, quantified(made, outer));
}

pub fn labels(draft: &mut Draft, rng: &mut Rng) {
    for _ in 0..rng.between(1, 3) {
        let target = draft.some_member(rng);
        let made = label(rng);
        let away_from_corner = !rng.one_in(4);
        let elements = &mut draft.some_alternative(target, rng).elements;
        let from = usize::from(away_from_corner && elements.len() > 1);
        if elements.len() > from {
            let place = rng.between(from, elements.len() - 1);
            elements[place].label = made;
        }
    }
}

pub fn options(draft: &mut Draft, rng: &mut Rng) {
    for _ in 0..rng.between(1, 4) {
        let target = draft.some_member(rng);
        let made = option(rng);
        let on_element = rng.one_in(8);
        let place = draft.some_alternative(target, rng);
        match place.elements.last_mut() {
            Some(last) if on_element => last.options.push(made),
            _ => place.options.push(made),
        }
    }
}

pub fn preserved(draft: &mut Draft, rng: &mut Rng) {
    let member = draft.some_member(rng);
    let satellite = draft.some_satellite(rng);
    draft.preserved.extend([member, satellite]);
    if rng.one_in(4) {
        draft.preserved.push(9_000);
    }
}

pub fn tail_satellite(draft: &mut Draft, rng: &mut Rng) {
    let (hub, satellite) = (draft.hub(rng), draft.some_satellite(rng));
    let made = if rng.one_in(3) {
        block(vec![alternative(vec![call(satellite)])])
    } else {
        call(satellite)
    };
    let elements = &mut draft.some_alternative(hub, rng).elements;
    elements.push(made);
}

pub fn flags(draft: &mut Draft, rng: &mut Rng) {
    let target = if rng.one_in(2) {
        draft.hub(rng)
    } else {
        draft.some_satellite(rng)
    };
    if rng.one_in(2) {
        draft.rule_mut(target).flags = rng.between(1, 3) as u32;
        return;
    }
    draft.some_alternative(target, rng).labelled = true;
}

/// A hub that has arguments, alone or with something else.
pub fn hub_arguments(draft: &mut Draft, rng: &mut Rng) {
    let hub = draft.hub(rng);
    draft.rule_mut(hub).flags = *rng.pick(&[1, 3]);
}

pub fn unknown(draft: &mut Draft, rng: &mut Rng) {
    let target = draft.some_member(rng);
    let mark = if rng.one_in(2) {
        some_quantifier(rng)
    } else {
        quantifier::ONE
    };
    let elements = &mut draft.some_alternative(target, rng).elements;
    let place = if rng.one_in(2) { 0 } else { elements.len() };
    elements.insert(place, quantified(call(UNKNOWN + 1), mark));
}

/// What the original's left corners stop at and the textbook's do not.
pub fn optional_symbol(draft: &mut Draft, rng: &mut Rng) {
    let target = draft.some_member(rng);
    let made = quantified(symbol(rng), skipping_quantifier(rng));
    let corners = draft.corners(target);
    if corners.is_empty() {
        return;
    }
    let place = *rng.pick(&corners);
    let alternatives = &mut draft.rule_mut(target).alternatives;
    alternatives[place].elements.insert(0, made.clone());
    if rng.one_in(2) {
        let mut plain = alternatives[place].clone();
        plain.elements.remove(0);
        alternatives.push(plain);
    }
}

pub fn arguments(draft: &mut Draft, rng: &mut Rng) {
    let target = draft.some_member(rng);
    let member = draft.some_member(rng);
    let made = Element::new(Kind::Call {
        name: member,
        arguments: rng.between(1, 9) as u32,
        precedence: 0,
    });
    let elements = &mut draft.some_alternative(target, rng).elements;
    let place = if rng.one_in(3) { 0 } else { elements.len() };
    elements.insert(place, made);
}

/// A satellite that reaches itself: substitution does not end by itself.
pub fn satellite_loop(draft: &mut Draft, rng: &mut Rng) {
    let satellite = draft.some_satellite(rng);
    let made = alternative(vec![call(satellite), symbol(rng)]);
    let alternatives = &mut draft.rule_mut(satellite).alternatives;
    let place = rng.below(alternatives.len() + 1);
    alternatives.insert(place, made);
}

/// Leaves no alternative that is settled outside the cycle.
pub fn no_base(draft: &mut Draft, rng: &mut Rng) {
    for name in draft.some_cycle(rng) {
        let corners = draft.corners(name);
        let rule = draft.rule_mut(name);
        let alternatives = std::mem::take(&mut rule.alternatives);
        let kept = alternatives.into_iter().enumerate();
        rule.alternatives = kept
            .filter(|(place, _)| corners.contains(place))
            .map(|(_, one)| one)
            .collect();
    }
}

/// A base that starts with a call of an outside rule, which may be optional.
pub fn outside_base(draft: &mut Draft, rng: &mut Rng) {
    let name = if rng.one_in(3) {
        nullable_rule(draft, rng)
    } else {
        let name = draft.free_name();
        let made = vec![alternative(vec![symbol(rng)])];
        draft.rules.push(rule(name, made));
        name
    };
    let mark = if rng.one_in(3) {
        some_quantifier(rng)
    } else {
        quantifier::ONE
    };
    let front = quantified(call(name), mark);
    for member in draft.some_cycle(rng) {
        let corners = draft.corners(member);
        let alternatives = draft.rule_mut(member).alternatives.iter_mut();
        for (place, own) in alternatives.enumerate() {
            if !corners.contains(&place) {
                own.elements.insert(0, front.clone());
            }
        }
    }
}

pub fn outside(draft: &mut Draft, rng: &mut Rng) {
    let (name, member) = (draft.free_name(), draft.some_member(rng));
    let made = vec![alternative(vec![symbol(rng), call(member)])];
    draft.rules.push(rule(name, made));
}

/// Rules and blocks with nothing in them, epsilon, an alternative of nothing.
pub fn hollow(draft: &mut Draft, rng: &mut Rng) {
    let target = draft.some_member(rng);
    let name = draft.free_name();
    match rng.below(4) {
        0 => draft.rules.push(rule(name, vec![])),
        1 => draft
            .some_alternative(target, rng)
            .elements
            .push(block(vec![])),
        2 => draft
            .some_alternative(target, rng)
            .elements
            .insert(0, epsilon()),
        _ => draft
            .rule_mut(target)
            .alternatives
            .push(alternative(vec![epsilon()])),
    }
}

pub fn long_chain(draft: &mut Draft, rng: &mut Rng) {
    add_cycle(draft, rng.between(5, 12), rng);
}

/// One more cycle, called from the first or calling it.
pub fn several(draft: &mut Draft, rng: &mut Rng) {
    add_cycle(draft, rng.between(2, 4), rng);
    let (one, two) = (draft.some_member(rng), draft.some_member(rng));
    let elements = &mut draft.some_alternative(one, rng).elements;
    elements.push(call(two));
}
