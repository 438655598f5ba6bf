//! Chains of up to 127 satellites, lists and loops near the limits of refusal 7 and the budget, a hub of many alternatives.

use reader::random::Random;
use reader::tree::{Alternative, Payload, Rule};

use super::{alternative, call, element, rule, token};

/// Not the name of a rule.
const TOKEN: u32 = 200;
const LABEL: u32 = 210;

fn options(random: &mut Random, most: usize) -> Vec<(u32, u32)> {
    let names = random.within(1, 40);
    let option = |at: usize| (1 + (at % names) as u32, 1 + (at / names) as u32);
    (0..random.below(most + 1)).map(option).collect()
}

/// `next` in front of tokens.
fn recursive(next: u32, tokens: usize) -> Alternative {
    let mut elements = vec![call(next)];
    elements.extend((0..tokens).map(|at| token(TOKEN + at as u32 % 4)));
    alternative(elements)
}

fn base(tokens: usize) -> Alternative {
    alternative(vec![token(TOKEN); tokens])
}

/// Each rule has the next one in front, the last one the hub; some have a second alternative.
pub fn chain(random: &mut Random) -> Vec<Rule> {
    let rules = match random.below(3) {
        0 => 128,
        1 => random.within(60, 70),
        _ => random.within(8, 127),
    };
    let second = [1, 3, 1_000][random.below(3)];
    let many = [0, 0, 1, 2, 20][random.below(5)];
    let mut made: Vec<Rule> = (1..=rules as u32)
        .map(|name| {
            let next = name % rules as u32 + 1;
            let mut own = recursive(next, random.below(3));
            // Options of one name and one value, so that they do not collide.
            own.options = (0..random.below(many + 1))
                .map(|_| random.below(60) as u32 + 1)
                .map(|option| (option, option))
                .collect();
            rule(name, vec![own])
        })
        .collect();
    for own in &mut made {
        if random.once_in(second) {
            own.alternatives.push(base(random.within(1, 2)));
        }
    }
    made[0].alternatives.push(base(1));
    made
}

/// Satellites of many alternatives, spliced into each other.
pub fn wide(random: &mut Random) -> Vec<Rule> {
    let counts: &[usize] = match random.below(5) {
        0 => &[32, 32],
        1 => &[31, 33],
        2 => &[10, 10, 10],
        3 => &[5, 5, 5, 4],
        _ => &[40, 3],
    };
    let tail = [0, 1, 3, 12, 60][random.below(5)];
    let (most, bases) = ([0, 0, 3, 9, 60][random.below(5)], random.below(30));
    let mut first = recursive(2, random.below(tail + 1));
    first.options = options(random, most);
    let mut alternatives = vec![first];
    alternatives.extend((0..=bases).map(|_| base(random.within(1, 3))));
    let mut made = vec![rule(1, alternatives)];
    for (place, count) in counts.iter().enumerate() {
        let name = 2 + place as u32;
        let next = if place + 1 == counts.len() {
            1
        } else {
            name + 1
        };
        let own = recursive(next, 1 + random.below(tail + 1) / 4);
        let count = count + 1 - random.below(3);
        made.push(rule(name, vec![own; count]));
    }
    made
}

/// One splice that makes a list near its limits, and every second time a collision in its last alternative.
pub fn splice(random: &mut Random) -> Vec<Rule> {
    let many = random.within(20, 90);
    let own_options = if random.once_in(2) { 2_048 / many } else { 1 };
    let tail = 8_192 / many - random.within(0, 4);
    let mut first = alternative(vec![call(2)]);
    first
        .elements
        .extend(vec![element(Payload::Other); tail.min(400)]);
    first.elements[1].label = Some((0, LABEL));
    first.options = (1..=own_options as u32).map(|at| (at, at)).collect();
    let mut alternatives = vec![recursive(1, random.below(2)); many + random.below(3)];
    let last = alternatives.last_mut().expect("there are many");
    match random.below(6) {
        0 | 1 => last.options = vec![(1, 2)],
        2 => last.elements[0].label = Some((0, LABEL)),
        _ => {}
    }
    vec![rule(1, vec![first, base(1)]), rule(2, alternatives)]
}

/// A satellite that reaches itself, with as many alternatives as make the budget 64 or its square.
pub fn looped(random: &mut Random) -> Vec<Rule> {
    let (again, others) = (random.within(1, 3), random.within(1, 12));
    let tail = random.below(4);
    let mut alternatives = vec![recursive(2, tail); again];
    alternatives.extend(vec![recursive(1, 1); others]);
    if random.once_in(2) {
        alternatives.reverse();
    }
    let hub = vec![recursive(2, random.below(3)), base(1)];
    vec![rule(1, hub), rule(2, alternatives)]
}

/// A hub that begins with more than a list may hold, or with nearly as much, and that is left with or without a step.
pub fn hub(random: &mut Random) -> Vec<Rule> {
    let front = match random.below(3) {
        0 => call(2),
        _ => element(Payload::Block(vec![alternative(vec![call(2)])])),
    };
    let mut alternatives = vec![alternative(vec![front, token(TOKEN)]), base(1)];
    if random.once_in(2) {
        alternatives.extend(vec![alternative(Vec::new()); random.within(1_015, 1_030)]);
    } else {
        let many = random.within(2_040, 2_056) as u32;
        alternatives[1].options = (1..=many).map(|at| (at, at)).collect();
    }
    vec![rule(1, alternatives), rule(2, vec![recursive(1, 1)])]
}
