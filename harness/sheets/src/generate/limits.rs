//! Sheets near every limit of refusals 7, 8 and 9, on both sides of the line.

use super::draft::*;
use super::number::number;
use super::skeleton::{Draft, add_cycle};
use crate::codec::{MOST_BYTES, encode};
use crate::rng::Rng;
use crate::tree::{Element, Kind, OptionDecl, Semantics, Sheet};

const ALTERNATIVES: usize = 1_024;
const ELEMENTS: usize = 8_192;
const OPTIONS_LIMIT: usize = 2_048;

/// Rule 1 is the hub; each rule of the chain behind it has so many alternatives
/// with the next one in front, so that splices multiply.
fn chain(many: &[usize], tail: &[Element]) -> Draft {
    let mut first = vec![call(2)];
    first.extend_from_slice(tail);
    let mut draft = Draft::new();
    draft.rules.push(rule(
        1,
        vec![alternative(first), alternative(vec![token(TOKENS + 1)])],
    ));
    for (place, count) in many.iter().enumerate() {
        let name = 2 + place as u32;
        let next = if place + 1 == many.len() { 1 } else { name + 1 };
        let made = alternative(vec![call(next), token(TOKENS)]);
        draft.rules.push(rule(name, vec![made; *count]));
    }
    draft
}

/// One of the three sizes of a planned list is at its limit or just beyond.
pub fn near_seven(rng: &mut Rng) -> Sheet {
    let beyond = rng.below(3).min(1);
    let draft = match rng.below(4) {
        0 => {
            // 1 + second * third alternatives
            let second = *rng.pick(&[11, 31, 33]);
            let draft = chain(&[second, (ALTERNATIVES - 1) / second], &[]);
            with_base(draft, beyond)
        }
        1 => many_elements(ELEMENTS + beyond, rng),
        2 => many_options(OPTIONS_LIMIT + beyond, rng),
        _ => growing_loop(rng),
    };
    number(draft, rng)
}

/// `more` alternatives of the hub beyond the one it has.
fn with_base(mut draft: Draft, more: usize) -> Draft {
    let made = alternative(vec![token(TOKENS + 1)]);
    draft.rule_mut(1).alternatives.extend(vec![made; more]);
    draft
}

/// Splicing `many` alternatives copies the tail as often; the base fills up.
fn many_elements(wanted: usize, rng: &mut Rng) -> Draft {
    let many = *rng.pick(&[16, 32, 64]);
    let tail = wanted / many - 4;
    let mut draft = chain(&[many, 1], &vec![other(1); tail]);
    // Each spliced alternative has the hub's call, two tokens and the tail.
    let left = wanted - many * (tail + 3);
    draft.rule_mut(1).alternatives[1].elements = vec![token(TOKENS + 1); left];
    draft
}

fn many_options(wanted: usize, rng: &mut Rng) -> Draft {
    let many = *rng.pick(&[16, 32, 64]);
    let each = wanted / many;
    let mut draft = chain(&[many, 1], &[]);
    let options = |count: usize| {
        let one = |place: usize| OptionDecl {
            name: OPTIONS + place as u32,
            value: 1,
        };
        (0..count).map(one).collect::<Vec<_>>()
    };
    let hub = draft.rule_mut(1);
    hub.alternatives[0].options = options(each);
    hub.alternatives[1].options = options(wanted - each * many);
    draft
}

/// A satellite that reaches itself with a long tail: over 8,192 elements long
/// before the budget ends, or not quite.
fn growing_loop(rng: &mut Rng) -> Draft {
    let mut draft = Draft::new();
    let tail = rng.between(1, 6);
    let again = rng.between(1, 6);
    let mut looped = vec![call(2)];
    looped.extend(vec![token(TOKENS); tail]);
    let mut alternatives = vec![alternative(looped); again];
    alternatives.push(alternative(vec![call(1), token(TOKENS)]));
    draft.rules.push(rule(
        1,
        vec![alternative(vec![call(2)]), alternative(vec![token(101)])],
    ));
    draft.rules.push(rule(2, alternatives));
    draft
}

/// One counter is so near its end that the plans just fit, or do not.
pub fn near_eight(rng: &mut Rng) -> Sheet {
    let mut sheet = if rng.one_in(5) {
        near_nine(rng)
    } else {
        of_every_sort(rng)
    };
    let near = u32::MAX - rng.below(5) as u32;
    match rng.below(5) {
        0 => sheet.counters.alternative = near,
        1 => sheet.counters.element = near - rng.below(12) as u32,
        2 => sheet.counters.label = near,
        3 => sheet.counters.action = near,
        _ => sheet.counters.predicate = near,
    }
    sheet
}

/// Labels, actions and predicates behind the hub's corner: a splice copies them.
fn of_every_sort(rng: &mut Rng) -> Sheet {
    let mut draft = Draft::new();
    add_cycle(&mut draft, rng.between(2, 3), rng);
    if rng.one_in(3) {
        add_cycle(&mut draft, 2, rng);
    }
    for alternative in &mut draft.rule_mut(1).alternatives {
        let with_label = Element {
            label: label(rng),
            ..token(TOKENS + 7)
        };
        let body = || Semantics {
            id: 0,
            references: Vec::new(),
        };
        let action = Element::new(Kind::Action(body()));
        let predicate = Element::new(Kind::Predicate(body()));
        alternative.elements.extend([with_label, action, predicate]);
    }
    number(draft, rng)
}

/// The result is of 32,768 bytes, or a word more or less.
pub fn just_nine(rng: &mut Rng) -> Sheet {
    let many = rng.between(3, 5);
    let tail = vec![other(1); rng.between(8, 12)];
    let mut sheet = number(chain(&[many, 1], &tail), &mut Rng::new(0, 0));
    let mut elements = vec![call(1), token(TOKENS), token(TOKENS)];
    elements.extend_from_slice(&tail);
    let mut joined = vec![alternative(elements); many];
    joined.push(alternative(vec![token(TOKENS + 1)]));
    let result = Sheet {
        rules: vec![rule(1, joined)],
        ..Sheet::default()
    };
    let room = MOST_BYTES / 4 - encode(&result).len();
    pad(&mut sheet, room + rng.below(3) - 1, rng);
    sheet
}

/// Adds exactly `words` words that the pass copies: a rule with nothing but
/// options, and ids of no rule in the preserved list.
fn pad(sheet: &mut Sheet, words: usize, rng: &mut Rng) {
    let record = 4 + 5;
    let ids = rng.between(0, 3) * 2 + (words - record) % 2;
    let filler = OptionDecl { name: 1, value: 1 };
    let mut made = rule(90, vec![alternative(vec![])]);
    made.id = 90;
    made.alternatives[0].options = vec![filler; (words - record - ids) / 2];
    made.alternatives[0].id = sheet.counters.alternative;
    sheet.counters.alternative += 1;
    sheet.rules.push(made);
    sheet
        .preserved
        .extend((0..ids as u32).map(|place| 80 + place));
}

/// Few alternatives, each spliced into many: the result cannot fit.
pub fn near_nine(rng: &mut Rng) -> Sheet {
    let tail = vec![other(1); rng.between(5, 9)];
    let many = rng.between(4, 5);
    number(chain(&[many, many, many, rng.between(2, 5)], &tail), rng)
}
