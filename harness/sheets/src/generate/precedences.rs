//! Precedences for calls, of which every draft has none.

use crate::rng::Rng;
use crate::tree::Sheet;
use crate::walk::precedences;

/// None mostly; else the least two words of one, and the last.
const PRECEDENCES: [u32; 6] = [0, 0, 0, 1, 2, u32::MAX];

/// Gives each call a precedence, nested ones too. The sheet then has words in those forms alone that have a place for it.
pub fn give_precedences(sheet: &mut Sheet, rng: &mut Rng) {
    precedences(sheet, &mut |precedence| {
        *precedence = *rng.pick(&PRECEDENCES)
    });
}
