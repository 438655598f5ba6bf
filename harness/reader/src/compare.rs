//! Holds another reader to the second one, sheet by sheet.

use crate::numbers::{NUMBERS, numbers};
use crate::read::read;
use crate::sheets::sheet;

/// The length of the work area that a reader is lent.
pub const WORK: usize = 65_536;
/// Bytes and words behind what is lent, which no reader may touch.
const GUARD: usize = 64;
const DIRT: u8 = 0xa5;
const UNSET: u32 = 0xdead_beef;

/// A reader that is handed a sheet, a work area and the numbers to fill in.
pub type Reader<'a> = &'a dyn Fn(&[u8], &mut [u8], &mut [u32]);

/// How many sheets got which number; 0 is a sheet that was taken.
#[derive(Debug, Default, PartialEq, Eq)]
pub struct Tally {
    pub answers: [u64; 7],
}

impl Tally {
    pub fn sheets(&self) -> u64 {
        self.answers.iter().sum()
    }
}

#[derive(Debug)]
pub struct Disagreement {
    pub index: u64,
    pub sheet: Vec<u8>,
    pub what: String,
}

/// Compares on `count` sheets of the run `seed`, and stops at the first on which the two differ.
pub fn run(reader: Reader, seed: u64, count: u64) -> Result<Tally, Disagreement> {
    let mut lent = Lent::new();
    let mut tally = Tally::default();
    for index in 0..count {
        let sheet = sheet(seed, index);
        match lent.one(reader, &sheet) {
            Ok(answer) => tally.answers[answer as usize] += 1,
            Err(what) => return Err(Disagreement { index, sheet, what }),
        }
    }
    Ok(tally)
}

/// What a reader is lent, used again for each sheet.
pub struct Lent {
    work: Vec<u8>,
    numbers: Vec<u32>,
}

impl Default for Lent {
    fn default() -> Lent {
        Lent::new()
    }
}

impl Lent {
    pub fn new() -> Lent {
        Lent {
            work: vec![DIRT; WORK + GUARD],
            numbers: vec![UNSET; NUMBERS + GUARD],
        }
    }

    /// The number that both readers give, or what differs.
    pub fn one(&mut self, reader: Reader, sheet: &[u8]) -> Result<u32, String> {
        self.work.fill(DIRT);
        self.numbers.fill(UNSET);
        reader(sheet, &mut self.work[..WORK], &mut self.numbers[..NUMBERS]);
        let expected = numbers(&read(sheet));
        self.same_numbers(&expected)?;
        self.work_as_promised(expected[0])?;
        Ok(expected[0])
    }

    fn same_numbers(&self, expected: &[u32; NUMBERS]) -> Result<(), String> {
        for (at, want) in expected.iter().enumerate() {
            let got = self.numbers[at];
            if got != *want {
                return Err(format!(
                    "number {at} is {got}, and {want} by the second reader"
                ));
            }
        }
        if self.numbers[NUMBERS..].iter().any(|n| *n != UNSET) {
            return Err("words behind the numbers were touched".to_string());
        }
        Ok(())
    }

    /// Zeros; under refusal 1 the work area is left alone.
    fn work_as_promised(&self, refusal: u32) -> Result<(), String> {
        let want = if refusal == 1 { DIRT } else { 0 };
        if let Some(at) = self.work[..WORK].iter().position(|b| *b != want) {
            return Err(format!("byte {at} of the work area is {}", self.work[at]));
        }
        if self.work[WORK..].iter().any(|b| *b != DIRT) {
            return Err("bytes behind the work area were touched".to_string());
        }
        Ok(())
    }
}
