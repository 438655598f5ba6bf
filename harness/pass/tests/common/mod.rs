//! A pass that answers by the original's outcome, so that the comparison can be tried without the proved one.
#![allow(dead_code)]

use pass::compare::{Buffers, promised};
use pass::outcome::{Outcome, judged};
use sheets::codec::{bytes_of, encode};
use sheets::parse::sheet;

/// What a wrong pass does to a right answer.
pub type Change = dyn Fn(&mut [u32; 5], &mut Buffers) + Sync;

pub fn answering(reading: usize, change: &Change) -> impl Fn(&[u8], Buffers, &mut [u32; 5]) + Sync {
    let right = move |sheet: &[u8]| judged(sheet).readings[reading].clone();
    let right = leaving(right);
    move |sheet, mut lent, numbers| {
        right(sheet, lent.each_mut().map(|own| &mut **own), numbers);
        change(numbers, &mut lent);
    }
}

/// A pass that leaves the outcome that is made of a sheet.
pub fn leaving(
    make: impl Fn(&[u8]) -> Outcome + Sync,
) -> impl Fn(&[u8], Buffers, &mut [u32; 5]) + Sync {
    move |sheet, mut lent, numbers| {
        let outcome = promised(&make(sheet), lent.each_ref().map(|own| own.len()));
        if !matches!(outcome.number(), 1 | 2) {
            lent.iter_mut().for_each(|own| own.fill(0));
            lent[0][..outcome.result.len()].copy_from_slice(&outcome.result);
            lent[1][..outcome.trail.len()].copy_from_slice(&outcome.trail);
        }
        *numbers = outcome.numbers;
    }
}

pub fn bytes(grammar: &str) -> Vec<u8> {
    bytes_of(&encode(&sheet(grammar)))
}
