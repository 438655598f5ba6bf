//! The sheets of a run: each made from the run's seed and its own index alone.

use crate::damage;
use crate::form::Form;
use crate::grow::{self, Limits};
use crate::random::Random;
use crate::tree::Sheet;

/// The sheet number `index` of the run `seed`: one in 16 is raw bytes, whose length goes through 0
/// to 64; the others are good sheets, sheets just past a limit, and damaged ones.
pub fn sheet(seed: u64, index: u64) -> Vec<u8> {
    sheet_in(Form::NEWEST, seed, index)
}

pub fn sheet_in(form: Form, seed: u64, index: u64) -> Vec<u8> {
    let mut random = Random::of(seed, index);
    if index.is_multiple_of(16) {
        return raw(&mut random, (index / 16 % 65) as usize);
    }
    match random.below(16) {
        0..=4 => good_in(form, &mut random).bytes(),
        5 => grown(form, Limits::ABOVE, &mut random).bytes(),
        6 => framed(&mut random),
        7 => glued(form, &mut random),
        8 | 9 => blurred(form, &mut random),
        _ => edited(form, &mut random),
    }
}

pub fn good(random: &mut Random) -> Sheet {
    good_in(Form::NEWEST, random)
}

fn good_in(form: Form, random: &mut Random) -> Sheet {
    grown(form, Limits::FORMAT, random)
}

fn grown(form: Form, limits: Limits, random: &mut Random) -> Sheet {
    let mut unit = grow::unit(random, Limits { form, ..limits });
    if form.precedences && random.once_in(2) {
        grow::give_precedences(&mut unit, random);
    }
    Sheet::of_in(form, &unit)
}

fn raw(random: &mut Random, length: usize) -> Vec<u8> {
    (0..length).map(|_| random.word() as u8).collect()
}

/// Small random words with a trailer that fits them.
fn framed(random: &mut Random) -> Vec<u8> {
    let before = random.below(40);
    let mut words: Vec<u32> = (0..before).map(|_| random.below(4) as u32).collect();
    words.push(random.within(1, 3) as u32);
    words.push(before as u32);
    words.push(random.below(before + 1) as u32);
    words.extend((0..5).map(|_| random.below(9) as u32));
    words.iter().flat_map(|w| w.to_le_bytes()).collect()
}

/// The rules of two good sheets before one trailer that fits them: nodes share ids as they fall.
fn glued(form: Form, random: &mut Random) -> Vec<u8> {
    let (front, back) = (good_in(form, random), good_in(form, random));
    let (front, ends) = front.words.split_at(front.words.len() - 8);
    let rules = &front[..front.len() - ends[2] as usize];
    let mut words = [rules, &back.words].concat();
    let before = words.len() - 8;
    words[before + 1] = before as u32;
    for (counter, other) in words[before + 3..].iter_mut().zip(&ends[3..]) {
        *counter = (*counter).max(*other);
    }
    words.iter().flat_map(|w| w.to_le_bytes()).collect()
}

fn blurred(form: Form, random: &mut Random) -> Vec<u8> {
    let mut bytes = good_in(form, random).bytes();
    let other = good_in(form, random).bytes();
    damage::blur(&mut bytes, &other, random);
    bytes
}

fn edited(form: Form, random: &mut Random) -> Vec<u8> {
    let mut sheet = good_in(form, random);
    for _ in 0..[1, 1, 1, 2, 3][random.below(5)] {
        damage::edit(&mut sheet, random);
    }
    sheet.bytes()
}
