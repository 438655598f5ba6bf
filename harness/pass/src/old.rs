//! Old sheets to try a conversion on: sheets of the first form, and some of today that are taken for it.

use reader::convert::{RESULT, WORK, convert};
use reader::form::Form;
use reader::random::Random;
use reader::read::read_in;
use reader::sheets as grown;
use sheets::codec::{bytes_of, encode_in, tree, words_of};
use sheets::form;
use sheets::tree::Sheet;
use sheets::walk::without_precedences;

const MOST_WORDS: usize = 8_192;
const TRAILER: usize = 8;

/// The old sheet number `index` of the run `seed`: raw bytes, good and damaged sheets; every eighth is one of today, or raw bytes,
/// and two in eight would end near the longest sheet.
pub fn sheet(seed: u64, index: u64) -> Vec<u8> {
    match index % 8 {
        0 => grown::sheet(seed, index),
        1 | 2 => near_the_longest(&mut Random::of(seed, index), seed, index),
        _ => grown::sheet_in(Form::FIRST, seed, index),
    }
}

/// What a tree was written as before calls had a precedence.
pub fn written(tree: &Sheet) -> Vec<u8> {
    bytes_of(&encode_in(form::Form::FIRST, &without_precedences(tree)))
}

/// The same of a sheet of today, where it holds a tree.
pub fn of_today(sheet: &[u8]) -> Option<Vec<u8>> {
    tree(sheet).ok().map(|tree| written(&tree))
}

/// A good sheet with so many preserved ids that the new one has as many words as a sheet may have, one less or one more; one in
/// four has a bit of its rules changed.
fn near_the_longest(random: &mut Random, seed: u64, index: u64) -> Vec<u8> {
    let old = grown::sheet_in(Form::FIRST, seed, index);
    let (mut result, mut work) = (vec![0; RESULT], vec![0; WORK]);
    let (0, length) = convert(&old, &mut result, &mut work) else {
        return old;
    };
    let parts = read_in(Form::FIRST, &old).expect("what is converted was read");
    let mut words = words_of(&old);
    let trailer = words.split_off(words.len() - TRAILER);
    let (rules, calls) = (
        parts.preserved_at as usize,
        (length as usize - old.len()) / 4,
    );
    let all = MOST_WORDS + random.below(3) - 1;
    let Some(preserved) = all.checked_sub(rules + calls + TRAILER) else {
        return old;
    };
    words.truncate(rules);
    words.extend(0..preserved as u32);
    if rules > 0 && random.once_in(4) {
        words[random.below(rules)] ^= 1 << random.below(32);
    }
    let in_front = words.len() as u32;
    words.extend([trailer[0], in_front, preserved as u32]);
    words.extend(&trailer[3..]);
    bytes_of(&words)
}
