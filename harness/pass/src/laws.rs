//! Four laws of a pass, each on one sheet and in both readings. A law compares calls of one pass with each other, and asks
//! no other pass.
//!
//! - Own result: where a call returned 0, there is nothing to do with the sheet that it left.
//! - Renaming: of a sheet with other names, as many, the outcome is the same with the result renamed.
//! - Carried numbers: of a sheet with other carried numbers the outcome is the same but for the result's carried numbers.
//! - Precedences: of a sheet with other precedences the outcome is the same but for the result's precedences.

use sheets::codec::{bytes_of, encode, tree};
use sheets::tree::Sheet;

use crate::changes::{Change, carry_nothing, raise_nothing};
use crate::outcome::{Outcome, judged};

/// Who answers sheets, by the original's reading of left corners and by the textbook's. A fault is told where buffers are
/// left as by no outcome.
pub type Asked<'a> = &'a mut dyn FnMut(&[u8]) -> Result<[Outcome; 2], String>;

const READINGS: [&str; 2] = ["the original's reading", "the textbook's reading"];

/// A law that does not hold: of which second sheet the answer is another, and how.
#[derive(Clone, Debug, PartialEq, Eq)]
pub struct Breach {
    pub second: Vec<u8>,
    pub what: String,
}

impl Breach {
    pub fn of(self, law: &str) -> Breach {
        Breach {
            what: format!("{law}: {}", self.what),
            ..self
        }
    }
}

/// The original, which can be asked about any bytes.
pub fn original(sheet: &[u8]) -> Result<[Outcome; 2], String> {
    Ok(judged(sheet).readings)
}

/// Of what was answered for a sheet. Each result is asked about in its own reading; told is whether the other joins it.
pub fn own_result(ask: Asked, first: &[Outcome; 2]) -> Result<[bool; 2], Breach> {
    let mut joined = [false; 2];
    let mut last: Option<(&[u8], [Outcome; 2])> = None;
    for reading in (0..2).filter(|reading| first[*reading].number() == 0) {
        let result = &first[reading].result[..];
        // Most results are those of both readings.
        let (_, second) = match last.take().filter(|(known, _)| *known == result) {
            Some(known) => last.insert(known),
            None => last.insert((result, asked(ask, result)?)),
        };
        held(reading, &second[reading], &Outcome::still(result), result)?;
        joined[reading] = second[1 - reading].plans() != 0;
    }
    Ok(joined)
}

/// Of a sheet that passes 1 to 4, what was answered, and a renaming.
pub fn renamed(
    ask: Asked,
    sheet: &Sheet,
    first: &[Outcome; 2],
    rename: Change,
) -> Result<(), Breach> {
    let second = changed(sheet, rename);
    let answers = asked(ask, &second)?;
    for (reading, answer) in answers.iter().enumerate() {
        let wanted = with_result(&first[reading], rename);
        let wanted = wanted.map_err(|what| breach(reading, what, &second))?;
        held(reading, answer, &wanted, &second)?;
    }
    Ok(())
}

/// Of a sheet that passes 1 to 4, what was answered, and a change of carried numbers.
pub fn carried(
    ask: Asked,
    sheet: &Sheet,
    first: &[Outcome; 2],
    carry: Change,
) -> Result<(), Breach> {
    but_for(ask, sheet, first, [carry, &carry_nothing])
}

/// Of a sheet that passes 1 to 4, what was answered, and a change of precedences.
pub fn raised(
    ask: Asked,
    sheet: &Sheet,
    first: &[Outcome; 2],
    raise: Change,
) -> Result<(), Breach> {
    but_for(ask, sheet, first, [raise, &raise_nothing])
}

/// With a change the outcome is the same but for what the second change takes away of a result.
fn but_for(
    ask: Asked,
    sheet: &Sheet,
    first: &[Outcome; 2],
    [change, clear]: [Change; 2],
) -> Result<(), Breach> {
    let second = changed(sheet, change);
    let answers = asked(ask, &second)?;
    for (reading, answer) in answers.iter().enumerate() {
        let both = [answer, &first[reading]].map(|own| with_result(own, clear));
        let [got, wanted] = both.map(|own| own.map_err(|what| breach(reading, what, &second)));
        held(reading, &got?, &wanted?, &second)?;
    }
    Ok(())
}

/// The bytes of the sheet with a change.
fn changed(sheet: &Sheet, change: Change) -> Vec<u8> {
    let mut sheet = sheet.clone();
    change(&mut sheet);
    bytes_of(&encode(&sheet))
}

/// The outcome with a change of the sheet that is its result, where it has one.
fn with_result(outcome: &Outcome, change: Change) -> Result<Outcome, String> {
    if outcome.number() != 0 {
        return Ok(outcome.clone());
    }
    let result =
        tree(&outcome.result).map_err(|number| format!("its result is refused by {number}"))?;
    Ok(Outcome {
        result: changed(&result, change),
        ..outcome.clone()
    })
}

/// What is answered for any bytes.
pub fn asked(ask: Asked, sheet: &[u8]) -> Result<[Outcome; 2], Breach> {
    ask(sheet).map_err(|what| Breach {
        second: sheet.to_vec(),
        what,
    })
}

fn held(reading: usize, got: &Outcome, wanted: &Outcome, second: &[u8]) -> Result<(), Breach> {
    match differs(got, wanted) {
        None => Ok(()),
        Some(what) => Err(breach(reading, what, second)),
    }
}

fn breach(reading: usize, what: String, second: &[u8]) -> Breach {
    Breach {
        second: second.to_vec(),
        what: format!("{what} ({})", READINGS[reading]),
    }
}

/// The first thing in which two outcomes differ.
fn differs(got: &Outcome, wanted: &Outcome) -> Option<String> {
    if got == wanted {
        return None;
    }
    if got.numbers != wanted.numbers {
        let (got, wanted) = (got.numbers, wanted.numbers);
        return Some(format!("numbers are {got:?}, and should be {wanted:?}"));
    }
    let parts = [
        ("result", &got.result, &wanted.result),
        ("trail", &got.trail, &wanted.trail),
    ];
    parts.iter().find_map(|(name, got, wanted)| {
        let at = (0..got.len().max(wanted.len())).find(|at| got.get(*at) != wanted.get(*at))?;
        let byte = |bytes: &[u8]| bytes.get(at).map_or("absent".to_owned(), u8::to_string);
        let (got, wanted) = (byte(got), byte(wanted));
        Some(format!("{name} byte {at} is {got}, and should be {wanted}"))
    })
}
