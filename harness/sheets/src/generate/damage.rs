//! Bytes that refusals 1 and 3 to 6 are about: good sheets with one fault.

use super::draft::{alternative, block};
use crate::codec::{bytes_of, encode};
use crate::rng::Rng;
use crate::tree::{Alternative, Sheet};

pub fn damage(sheet: &Sheet, rng: &mut Rng) -> Vec<u8> {
    if rng.one_in(2) {
        let mut sheet = sheet.clone();
        damage_tree(&mut sheet, rng);
        return bytes_of(&encode(&sheet));
    }
    let mut words = encode(sheet);
    damage_words(&mut words, rng);
    let mut bytes = bytes_of(&words);
    if rng.one_in(10) {
        bytes.push(0);
    }
    bytes
}

/// Faults that keep every record whole.
fn damage_tree(sheet: &mut Sheet, rng: &mut Rng) {
    let first = sheet.rules[0].clone();
    let alternatives = &mut sheet.rules[1].alternatives;
    match rng.below(8) {
        0 => sheet.rules.push(first),
        1 => sheet.rules[1].id = first.id,
        2 => sheet.rules[1].name = first.name,
        3 => alternatives.extend(first.alternatives),
        4 => sheet.counters.alternative = first.alternatives.last().map_or(1, |last| last.id),
        5 => sheet.counters.element = rng.below(24) as u32,
        6 => sheet.preserved = vec![7, rng.between(5, 9) as u32],
        _ => sheet.rules[0].alternatives = nested(rng.between(8, 9)),
    }
}

/// Blocks with nothing else in them, `depth` in one another. Ids repeat.
fn nested(depth: usize) -> Vec<Alternative> {
    let innermost = vec![alternative(vec![])];
    (0..depth).fold(innermost, |inside, _| {
        vec![alternative(vec![block(inside)])]
    })
}

fn damage_words(words: &mut Vec<u32>, rng: &mut Rng) {
    let trailer = words.len() - 8;
    match rng.below(8) {
        0 => words.truncate(rng.below(9)),
        1 => words[trailer + rng.below(3)] = rng.below(300) as u32,
        2 => words[trailer + 3 + rng.below(5)] = rng.below(25) as u32,
        3 => {
            words.remove(rng.below(trailer));
            words[trailer] -= 1;
        }
        4 => {
            words.insert(rng.below(trailer), rng.below(12) as u32);
            words[trailer + 2] += 1;
        }
        5 => words[rng.below(trailer)] = u32::MAX,
        6 => words[rng.below(trailer)] ^= 1 << rng.below(12),
        _ => words.insert(trailer, 0),
    }
}
