//! What a call must answer, by the original.

use oracle::ask_within;
use sheets::blocks::has_end_of_input;
use sheets::codec::{bytes_of, encode};
use sheets::tree::Sheet;
use traced::{Limits, Stage};

use crate::folded;

/// The five numbers, and what stands in front of the zeros in result and trail.
#[derive(Clone, Debug, Default, PartialEq, Eq)]
pub struct Outcome {
    pub numbers: [u32; 5],
    pub result: Vec<u8>,
    pub trail: Vec<u8>,
}

impl Outcome {
    pub fn refused(number: u32) -> Outcome {
        Outcome {
            numbers: [number, 0, 0, 0, 0],
            ..Outcome::default()
        }
    }

    pub fn accepted(stages: &[Stage], result: &Sheet, trail: &[[u32; 4]]) -> Outcome {
        let result = bytes_of(&encode(result));
        let trail = bytes_of(trail.as_flattened());
        let steps: usize = stages.iter().map(|stage| stage.steps).sum();
        let numbers = [0, stages.len(), steps, result.len(), trail.len()];
        Outcome {
            numbers: numbers.map(|number| number as u32),
            result,
            trail,
        }
    }

    /// Of a sheet with which there is nothing to do.
    pub fn still(sheet: &[u8]) -> Outcome {
        Outcome {
            numbers: [0, 0, 0, sheet.len() as u32, 0],
            result: sheet.to_vec(),
            trail: Vec::new(),
        }
    }

    pub fn number(&self) -> u32 {
        self.numbers[0]
    }

    pub fn plans(&self) -> u32 {
        self.numbers[1]
    }
}

/// By the original's reading of left corners, then by the textbook's.
#[derive(Clone, Debug, PartialEq, Eq)]
pub struct Judged {
    pub readings: [Outcome; 2],
    /// Whether a symbol may be absent, so that the readings can part.
    pub folded: bool,
    /// Whether the end of input stands in it.
    pub ends: bool,
    /// Whether two names have one remainder modulo 65,536.
    pub alike: bool,
    /// Whether a call has a precedence.
    pub raised: bool,
}

/// For any bytes. Refusals 1 and 3 to 6 are told by two readers, which must agree.
pub fn judged(sheet: &[u8]) -> Judged {
    let read = sheets::codec::read(sheet);
    let second = reader::read::read(sheet);
    assert_eq!(
        read.as_ref().err(),
        second.as_ref().err(),
        "the readers part on {sheet:?}"
    );
    let tree = match read {
        Ok(tree) => tree,
        Err(number) => {
            let refused = || Outcome::refused(number);
            return Judged {
                readings: [refused(), refused()],
                folded: false,
                ends: false,
                alike: false,
                raised: false,
            };
        }
    };
    let original = original(&tree);
    let textbook = folded::outcome(&tree);
    Judged {
        folded: textbook.is_some(),
        ends: has_end_of_input(&tree),
        alike: sheets::walk::shares_a_remainder(&tree),
        raised: sheets::walk::has_precedences(&tree),
        readings: [original.clone(), textbook.unwrap_or(original)],
    }
}

/// For a sheet that passes 1 to 6.
pub fn original(tree: &Sheet) -> Outcome {
    if has_end_of_input(tree) {
        return folded::outcome_with_ends(tree);
    }
    let (outcome, trace) = ask_within(tree, Limits::STANDARD);
    match outcome {
        Ok(unchanged) => Outcome::accepted(&trace.stages, &unchanged.result, &trace.trail),
        Err(number) => Outcome::refused(number),
    }
}
