//! The conversion of a sheet of the first form into another form: what a call leaves in what it is lent.
//!
//! It answers 1 and 3 to 6 as a reader of the first form does, 2 where it is lent too little, and 9 where the sheet made is longer
//! than a sheet may be.

use crate::form::Form;
use crate::read::{BAD_LENGTH, LONGEST, TRAILER_WORDS, WORD_BYTES, read_with_calls};

/// The least lengths of what a call is lent.
pub const RESULT: usize = LONGEST;
pub const WORK: usize = 65_536;

const SHORT: u32 = 2;
const TOO_LONG: u32 = 9;
/// The first distance is this many words in front of the end: behind the unit kind.
const FIRST_DISTANCE: usize = TRAILER_WORDS - 1;

/// The number, and the length in bytes of the sheet that stands at the front of the result.
pub fn convert(old: &[u8], result: &mut [u8], work: &mut [u8]) -> (u32, u32) {
    convert_to(Form::NEWEST, old, result, work)
}

pub fn convert_to(form: Form, old: &[u8], result: &mut [u8], work: &mut [u8]) -> (u32, u32) {
    let made = converted(form, old);
    if made == Err(BAD_LENGTH) {
        return (BAD_LENGTH, 0);
    }
    if result.len() < RESULT || work.len() < WORK {
        return (SHORT, 0);
    }
    result.fill(0);
    work.fill(0);
    match made {
        Err(refusal) => (refusal, 0),
        Ok(sheet) => {
            result[..sheet.len()].copy_from_slice(&sheet);
            (0, sheet.len() as u32)
        }
    }
}

/// The sheet in the other form, or the lowest refusal but 2 that holds.
fn converted(form: Form, old: &[u8]) -> Result<Vec<u8>, u32> {
    let (_parts, calls) = read_with_calls(Form::FIRST, old)?;
    let sheet = match form.precedences {
        true => with_precedences(old, &calls),
        false => old.to_vec(),
    };
    if sheet.len() > LONGEST {
        return Err(TOO_LONG);
    }
    Ok(sheet)
}

/// The same words with a 0, no precedence, behind those of each call; `ends` are the places behind them.
fn with_precedences(old: &[u8], ends: &[usize]) -> Vec<u8> {
    let mut sheet = Vec::new();
    let mut copied = 0;
    for end in ends {
        sheet.extend(&old[copied..end * WORD_BYTES]);
        sheet.extend([0; WORD_BYTES]);
        copied = end * WORD_BYTES;
    }
    sheet.extend(&old[copied..]);
    let in_front = sheet.len() / WORD_BYTES - TRAILER_WORDS;
    let distance = sheet.len() - FIRST_DISTANCE * WORD_BYTES;
    sheet[distance..][..WORD_BYTES].copy_from_slice(&(in_front as u32).to_le_bytes());
    sheet
}
