//! Grammars with plans to apply: several knots in one, and sheets at the very end of a counter or of the bytes that a
//! result may have.

use reader::grow::{each_id, number};
use reader::random::Random;
use reader::tree::{Alternative, Payload, Rule, Sheet, Unit};
use sheets::codec::{self, words_of};

use crate::outcome::original;

/// The words of the largest sheet, and the most rules.
const MOST: usize = 8_192;
const RULES: usize = 128;
/// How far the names of two parts of a crowd are apart. The planner's generator has names below the first; by the second they
/// have the same low halves.
const APART: [u32; 2] = [256, 65_536];
/// The words of a trailer behind its counters.
const COUNTERS: usize = 5;

/// A unit of the planner's generator, or several in one, most with room for ids.
pub fn unit(random: &mut Random) -> Unit {
    let mut unit = match random.below(4) {
        0 => crowd(random),
        _ => plans::grow::unit(random),
    };
    if !random.once_in(4) {
        ease(&mut unit, random);
    }
    unit
}

/// One that may be at an end of what is allowed: of a counter, or of the result's bytes.
pub fn sheet(random: &mut Random) -> Vec<u8> {
    let mut unit = unit(random);
    ease(&mut unit, random);
    let bytes = Sheet::of(&unit).bytes();
    let tree = codec::read(&bytes).expect("a good sheet");
    let outcome = original(&tree);
    if outcome.plans() == 0 {
        return bytes;
    }
    let before = words_of(&bytes);
    let after = words_of(&outcome.result);
    match random.below(3) {
        0 => at_the_end_of_a_counter(&mut unit, &before, &after, random),
        1 => at_the_end_of_the_bytes(&mut unit, before.len(), after.len(), random),
        _ => {}
    }
    Sheet::of(&unit).bytes()
}

/// The counter of a sort of which ids were handed out ends at its end, one before it, or past it.
fn at_the_end_of_a_counter(unit: &mut Unit, before: &[u32], after: &[u32], random: &mut Random) {
    let ends = |words: &[u32]| words[words.len() - COUNTERS..].to_vec();
    let handed_out: Vec<u32> = ends(after)
        .iter()
        .zip(ends(before))
        .map(|(after, before)| after - before)
        .collect();
    let sorts: Vec<usize> = (0..COUNTERS)
        .filter(|sort| handed_out[*sort] != 0)
        .collect();
    let sort = sorts[random.below(sorts.len())];
    unit.counters[sort] = u32::MAX - handed_out[sort] + [0, 0, 1, 1][random.below(4)];
}

/// Ids of no rule are preserved, as many as the result has room for, or one more or less. The sheet has room for them
/// where the result is not shorter.
fn at_the_end_of_the_bytes(unit: &mut Unit, before: usize, after: usize, random: &mut Random) {
    let wanted = (MOST + random.below(3)).saturating_sub(1 + after);
    let room = MOST - before;
    let mut free = (0..u32::MAX).rev();
    let taken: Vec<u32> = unit
        .rules
        .iter()
        .map(|rule| rule.id)
        .chain(unit.preserved.clone())
        .collect();
    let added = free.by_ref().filter(|id| !taken.contains(id));
    unit.preserved.extend(added.take(wanted.min(room)));
    unit.preserved.sort_unstable();
}

/// Counters just above the ids, so that plans have room.
fn ease(unit: &mut Unit, random: &mut Random) {
    let mut last = [None; COUNTERS];
    each_id(unit, &mut |sort, id| last[sort] = last[sort].max(Some(*id)));
    for (counter, last) in unit.counters.iter_mut().zip(last) {
        let next = last.map_or(0, |last| last + 1);
        *counter = next.saturating_add(random.below(9) as u32);
    }
}

/// Several units in one: their rules in turn, with names and ids of their own.
fn crowd(random: &mut Random) -> Unit {
    let mut whole = plans::grow::unit(random);
    whole.kind = 2;
    let apart = APART[random.below(2)];
    for part in 1..random.within(2, 6) as u32 {
        let mut more = plans::grow::unit(random);
        // Names that were picked anew may be shared with rules of another part.
        each_name(&mut more.rules, &mut |name| {
            *name = name.wrapping_add(part * apart).max(1);
        });
        let mut both = Unit {
            rules: [whole.rules.clone(), more.rules].concat(),
            ..whole.clone()
        };
        named_apart(&mut both.rules);
        let words = Sheet::of(&both).words.len() + both.rules.len();
        if RULES < both.rules.len() || MOST < words {
            break;
        }
        whole = both;
    }
    for (id, rule) in random
        .distinct(whole.rules.len(), u32::MAX)
        .into_iter()
        .zip(&mut whole.rules)
    {
        rule.id = id;
    }
    whole.preserved = whole
        .rules
        .iter()
        .map(|rule| rule.id)
        .filter(|_| random.once_in(9))
        .collect();
    whole.preserved.sort_unstable();
    number(&mut whole, random);
    whole
}

/// A rule whose name another has takes the next free one; its calls then go to the other.
fn named_apart(rules: &mut [Rule]) {
    let mut taken = std::collections::HashSet::new();
    for rule in rules {
        while !taken.insert(rule.name) {
            rule.name = rule.name % u32::MAX + 1;
        }
    }
}

fn each_name(rules: &mut [Rule], see: &mut dyn FnMut(&mut u32)) {
    for rule in rules {
        see(&mut rule.name);
        each_call(&mut rule.alternatives, see);
    }
}

fn each_call(alternatives: &mut [Alternative], see: &mut dyn FnMut(&mut u32)) {
    for element in alternatives.iter_mut().flat_map(|own| &mut own.elements) {
        match &mut element.payload {
            Payload::Call(name, ..) => see(name),
            Payload::Block(inner) => each_call(inner, see),
            _ => {}
        }
    }
}
