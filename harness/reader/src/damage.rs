//! Edits of a sheet that leave it near a good one: most break one thing, some break nothing.

use crate::random::Random;
use crate::tree::{Field, Sheet};

/// One edit by field, of a kind picked at random. A sheet without such a field stays as it is.
pub fn edit(sheet: &mut Sheet, random: &mut Random) {
    match random.below(16) {
        0 => count(sheet, random),
        1 | 2 => copied_id(sheet, random),
        3 | 4 => id_at_counter(sheet, random),
        5 => counter(sheet, random),
        6 => distance(sheet, random),
        7 => name(sheet, random),
        8 => copied_rule(sheet, random),
        9 => listed(sheet, random),
        10 => label(sheet, random),
        11 => preserved(sheet, random),
        12 => free(sheet, random),
        13 => any_word(sheet, random),
        14 => shifted(sheet, random),
        _ => kind(sheet, random),
    }
}

/// One edit of the bytes: bits flipped, cut, glued.
pub fn blur(bytes: &mut Vec<u8>, other: &[u8], random: &mut Random) {
    match random.below(5) {
        0 => flip(bytes, random),
        1 => bytes.truncate(random.below(bytes.len() + 1)),
        2 => bytes.truncate(random.below(bytes.len() / 4 + 1) * 4),
        3 => bytes.extend_from_slice(other),
        _ => {
            let tail = bytes.split_off(random.below(bytes.len() / 4 + 1) * 4);
            bytes.extend_from_slice(other);
            bytes.extend_from_slice(&tail);
        }
    }
}

fn flip(bytes: &mut [u8], random: &mut Random) {
    for _ in 0..random.within(1, 3) {
        let at = random.below(bytes.len());
        bytes[at] ^= 1 << random.below(8);
    }
}

fn pick(sheet: &Sheet, random: &mut Random, wanted: impl Fn(Field) -> bool) -> Option<usize> {
    let places = sheet.places(wanted);
    match places.len() {
        0 => None,
        n => Some(places[random.below(n)]),
    }
}

/// Sets a word that `wanted` picks to what `value` makes of it.
fn set(
    sheet: &mut Sheet,
    random: &mut Random,
    wanted: impl Fn(Field) -> bool,
    value: impl Fn(u32, &mut Random) -> u32,
) {
    if let Some(at) = pick(sheet, random, wanted) {
        sheet.words[at] = value(sheet.words[at], random);
    }
}

/// A neighbour of `word`, or a word at an edge.
fn near(word: u32, random: &mut Random) -> u32 {
    match random.below(3) {
        0 => word.wrapping_add(1),
        1 => word.wrapping_sub(1),
        _ => random.edge(),
    }
}

fn count(sheet: &mut Sheet, random: &mut Random) {
    set(sheet, random, |f| f == Field::Count, near);
}

/// Writes one node's id over another's of its sort.
fn copied_id(sheet: &mut Sheet, random: &mut Random) {
    let sorts: Vec<usize> = (0..5)
        .filter(|s| sheet.places(|f| f == Field::Id(*s)).len() > 1)
        .collect();
    if sorts.is_empty() {
        return;
    }
    let sort = sorts[random.below(sorts.len())];
    copy(sheet, random, Field::Id(sort));
}

fn copied_rule(sheet: &mut Sheet, random: &mut Random) {
    let field = match random.once_in(2) {
        true => Field::RuleId,
        false => Field::RuleName,
    };
    copy(sheet, random, field);
}

fn copy(sheet: &mut Sheet, random: &mut Random, field: Field) {
    let from = pick(sheet, random, |f| f == field);
    let to = pick(sheet, random, |f| f == field);
    if let (Some(from), Some(to)) = (from, to) {
        sheet.words[to] = sheet.words[from];
    }
}

/// An id equal to its counter, or just below it, or anything.
fn id_at_counter(sheet: &mut Sheet, random: &mut Random) {
    let Some(at) = pick(sheet, random, |f| matches!(f, Field::Id(_))) else {
        return;
    };
    let Field::Id(sort) = sheet.fields[at] else {
        return;
    };
    let counters = sheet.words.len() - 5;
    let counter = sheet.words[counters + sort];
    sheet.words[at] = match random.below(4) {
        0 | 1 => counter,
        2 => counter.wrapping_sub(1),
        _ => random.any(),
    };
}

fn counter(sheet: &mut Sheet, random: &mut Random) {
    set(sheet, random, |f| matches!(f, Field::Counter(_)), near);
}

fn distance(sheet: &mut Sheet, random: &mut Random) {
    set(sheet, random, |f| f == Field::Distance, near);
}

fn kind(sheet: &mut Sheet, random: &mut Random) {
    set(
        sheet,
        random,
        |f| f == Field::Kind,
        |_, r| r.below(6) as u32,
    );
}

fn name(sheet: &mut Sheet, random: &mut Random) {
    let named = |f| matches!(f, Field::Name | Field::RuleName | Field::LabelName);
    set(sheet, random, named, |_, r| match r.below(5) {
        0 => 0,
        1 => 65_536,
        2 => u32::MAX,
        _ => r.any(),
    });
}

/// A value of a list: flags, kinds, quantifiers.
fn listed(sheet: &mut Sheet, random: &mut Random) {
    let wanted = |f| {
        matches!(
            f,
            Field::RuleFlags | Field::Flag | Field::ReferenceKind | Field::Packed
        )
    };
    set(sheet, random, wanted, |word, r| match r.below(5) {
        0 => word.wrapping_add(256),
        1 => word.wrapping_add(1),
        2 => r.below(8) as u32 + 256 * r.below(8) as u32,
        3 => word | 0x1_0000,
        _ => r.below(9) as u32,
    });
}

fn label(sheet: &mut Sheet, random: &mut Random) {
    let field = match random.once_in(2) {
        true => Field::NoLabel,
        false => Field::LabelName,
    };
    set(sheet, random, |f| f == field, |_, r| r.below(3) as u32);
}

/// Equal or falling neighbours in the preserved list, or another id.
fn preserved(sheet: &mut Sheet, random: &mut Random) {
    let places = sheet.places(|f| f == Field::Preserved);
    if places.len() < 2 {
        return;
    }
    let at = places[random.below(places.len() - 1)];
    match random.below(3) {
        0 => sheet.words.swap(at, at + 1),
        1 => sheet.words[at + 1] = sheet.words[at],
        _ => sheet.words[at] = random.any(),
    }
}

/// A word that any reader must leave alone.
fn free(sheet: &mut Sheet, random: &mut Random) {
    set(sheet, random, |f| f == Field::Free, |_, r| r.any());
}

fn any_word(sheet: &mut Sheet, random: &mut Random) {
    set(sheet, random, |_| true, near);
}

/// A word dropped or put in before the trailer, the first distance following or not.
fn shifted(sheet: &mut Sheet, random: &mut Random) {
    let before = sheet.words.len() - 8;
    let at = random.below(before + 1);
    if random.once_in(2) {
        sheet.words.insert(at, random.any());
        sheet.fields.insert(at, Field::Free);
    } else if at < before {
        sheet.words.remove(at);
        sheet.fields.remove(at);
    }
    if !random.once_in(4) {
        let before = sheet.words.len() - 8;
        sheet.words[before + 1] = before as u32;
    }
}
