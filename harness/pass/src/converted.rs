//! Holds a conversion to the second account of it: both numbers and every byte of both buffers, with all that is lent between
//! fences, and of some calls with a small stack.

use std::fmt;
use std::thread::{Builder, scope};

use reader::convert::{RESULT, WORK, convert as second};

use crate::fenced::{lend_sheet, spoil};
use crate::fences::{Fenced, Side, tell};

/// Of an old sheet, with the result, the work area and the two numbers.
pub type Convert<'a> = &'a (dyn Fn(&[u8], &mut [u8], &mut [u8], &mut [u32; 2]) + Sync);

pub const STACK: usize = 65_536;
const LEAST: [usize; 2] = [RESULT, WORK];
/// Sheets are longer only where they are refused for it.
const SHEET: usize = 65_536;
const MORE: usize = 4_096;
const NUMBERS: usize = 2 * size_of::<u32>();
const SIDES: [Side; 2] = [Side::Front, Side::Back];
const JUNK: u32 = 0xa5a5_a5a5;

/// How the sheets ended.
#[derive(Debug, Default, PartialEq, Eq)]
pub struct Tally {
    /// By their numbers; 0 is a sheet that was converted.
    pub numbers: [u64; 10],
    /// Converted, with a call at least.
    pub grown: u64,
    /// Converted to a sheet of the longest length.
    pub longest: u64,
    pub calls: u64,
    pub short: u64,
    /// Calls on a thread with a small stack.
    pub small: u64,
}

impl Tally {
    pub fn sheets(&self) -> u64 {
        self.numbers.iter().sum()
    }
}

impl fmt::Display for Tally {
    fn fmt(&self, f: &mut fmt::Formatter<'_>) -> fmt::Result {
        let [converted, ..] = self.numbers;
        write!(
            f,
            "converted {converted}, with a call {}, to the longest length {}",
            self.grown, self.longest
        )?;
        for (number, count) in self.numbers.iter().enumerate().skip(1) {
            if *count > 0 {
                write!(f, "; refused by {number} {count}")?;
            }
        }
        Ok(())
    }
}

/// What is lent again for each call.
pub struct Yard {
    sheet: Fenced,
    numbers: Fenced,
    /// With room for the least lengths exactly, so that both fences stand close; and with more.
    close: [Fenced; 2],
    wide: [Fenced; 2],
    /// What stands in each buffer at first.
    junk: Vec<u8>,
    expected: [Vec<u8>; 2],
    pub tally: Tally,
}

/// The lengths of the buffers, at which fence everything stands, and whether the stack is small.
#[derive(Clone, Copy, Debug)]
struct Call {
    lengths: [usize; 2],
    side: Side,
    is_small: bool,
}

impl Default for Yard {
    fn default() -> Yard {
        Yard {
            sheet: Fenced::new(SHEET),
            numbers: Fenced::new(NUMBERS),
            close: LEAST.map(Fenced::new),
            wide: LEAST.map(|least| Fenced::new(least + MORE)),
            junk: junk(),
            expected: Default::default(),
            tally: Tally::default(),
        }
    }
}

impl Yard {
    /// Asks about an old sheet; `turn` goes through lengths.
    pub fn ask(
        &mut self,
        convert: Convert,
        name: &str,
        old: &[u8],
        turn: usize,
    ) -> Result<(), String> {
        for (place, call) in calls(turn).into_iter().enumerate() {
            tell(format!("{name} ({call:?})"));
            let numbers = self.one(convert, old, call);
            let [number, length] = numbers.map_err(|what| format!("{what} ({call:?})"))?;
            self.tally.calls += 1;
            self.tally.small += u64::from(call.is_small);
            self.tally.short += u64::from(number == 2);
            if place == 0 {
                self.tally.numbers[number as usize] += 1;
                let is_converted = number == 0;
                self.tally.grown += u64::from(is_converted && length as usize > old.len());
                self.tally.longest += u64::from(is_converted && length as usize == RESULT);
            }
        }
        Ok(())
    }

    /// The numbers that both give, or what differs.
    fn one(&mut self, convert: Convert, old: &[u8], call: Call) -> Result<[u32; 2], String> {
        let sheet = lend_sheet(&mut self.sheet, old, call.side);
        let numbers = lend_numbers(&mut self.numbers, call.side);
        let is_close = call
            .lengths
            .iter()
            .zip(LEAST)
            .all(|(own, least)| *own <= least);
        let [result, work] = match is_close {
            true => &mut self.close,
            false => &mut self.wide,
        };
        let [result_length, work_length] = call.lengths;
        let mut lent = [
            result.lend(result_length, call.side),
            work.lend(work_length, call.side),
        ];
        for (lent, expected) in lent.iter_mut().zip(&mut self.expected) {
            let junk = &self.junk[..lent.len()];
            lent.copy_from_slice(junk);
            expected.clear();
            expected.extend_from_slice(junk);
        }
        let [result, work] = &mut self.expected;
        let wanted: [u32; 2] = second(old, result, work).into();
        let [result, work] = lent;
        match call.is_small {
            true => on_a_small_stack(|| convert(sheet, result, work, numbers)),
            false => convert(sheet, result, work, numbers),
        }
        if *numbers != wanted {
            return Err(format!(
                "numbers are {numbers:?}, and {wanted:?} by the second account"
            ));
        }
        same("the result", result, &self.expected[0])?;
        same("the work area", work, &self.expected[1])?;
        Ok(wanted)
    }
}

fn same(what: &str, got: &[u8], expected: &[u8]) -> Result<(), String> {
    if got == expected {
        return Ok(());
    }
    let differs = |at: &usize| got[*at] != expected[*at];
    let at = (0..expected.len()).find(differs).expect("a byte differs");
    Err(format!(
        "byte {at} of {what} is {}, and {} by the second account",
        got[at], expected[at]
    ))
}

fn junk() -> Vec<u8> {
    let mut junk = vec![0; WORK + MORE];
    spoil(&mut junk);
    junk
}

fn on_a_small_stack(call: impl FnOnce() + Send) {
    scope(|scope| {
        let thread = Builder::new().stack_size(STACK).spawn_scoped(scope, call);
        thread.expect("a thread").join().expect("it does not panic");
    });
}

fn lend_numbers(area: &mut Fenced, side: Side) -> &mut [u32; 2] {
    let lent = area.lend(NUMBERS, side);
    // SAFETY: 8 bytes at either end of a page, which is aligned.
    let numbers = unsafe { &mut *lent.as_mut_ptr().cast() };
    *numbers = [JUNK; 2];
    numbers
}

/// At both fences: the least lengths, of every fourth sheet with a small stack; and in turn longer ones, ones too short by a
/// byte or two, and nothing at all.
fn calls(turn: usize) -> Vec<Call> {
    const ADDED: [usize; 3] = [1, 7, 4_095];
    let longer = LEAST.map(|least| least + ADDED[turn % 3]);
    let mut short = LEAST;
    short[turn / 2 % 2] -= [1, 1, 2, 4][turn / 4 % 4];
    let mut none = LEAST;
    none[turn / 2 % 2] = 0;
    let lengths = [LEAST, [longer, short, longer, none][turn % 4]];
    let both = |lengths| {
        SIDES.map(|side| Call {
            lengths,
            side,
            is_small: turn % 4 == 1 && lengths == LEAST,
        })
    };
    lengths.into_iter().flat_map(both).collect()
}
