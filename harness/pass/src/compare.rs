//! Holds a pass to the outcome by the original, one call at a time.

use std::ops::Range;

use analysis::guarded::Guarded;
use plans::compare::Junk;

use crate::outcome::Outcome;

/// The least lengths of result, trail and work area.
pub const LEAST: [usize; 3] = [32_768, 65_536, 65_536];
const NAMES: [&str; 3] = ["result", "trail", "work area"];
/// Bytes behind what is lent, which nobody may touch, as those in front of it.
const GUARD: usize = 64;
const UNSET: u32 = 0xdead_beef;
static ZEROS: [u8; 1 << 18] = [0; 1 << 18];
/// Junk that begins again where it ends.
static MIXED: [u8; 768] = mixed();

const fn mixed() -> [u8; 768] {
    let mut bytes = [0; 768];
    let mut at = 0;
    while at < bytes.len() {
        bytes[at] = (at * 29 / 3) as u8 | 1;
        at += 1;
    }
    bytes
}

/// Result, trail and work area.
pub type Buffers<'a> = [&'a mut [u8]; 3];
/// Is handed a sheet, the three buffers, and the numbers to fill in.
pub type Pass<'a> = &'a (dyn Fn(&[u8], Buffers, &mut [u32; 5]) + Sync);

/// What is lent to a call.
#[derive(Clone, Copy, Debug)]
pub struct Call {
    pub lengths: [usize; 3],
    /// Bytes in front of the sheet and of the three buffers, so that they need not be aligned.
    pub starts: [usize; 4],
    pub junk: Junk,
}

impl Call {
    /// Where the part of an area is that is lent.
    fn part(&self, at: usize) -> Range<usize> {
        let start = self.starts[1 + at];
        start..start + self.lengths[at]
    }

    fn parts<'a>(&self, areas: &'a [Vec<u8>; 3]) -> [&'a [u8]; 3] {
        [0, 1, 2].map(|at| &areas[at][self.part(at)])
    }
}

/// What must be answered where buffers of these lengths are lent: refusal 2 belongs to them, and 1 comes before it.
pub fn promised(outcome: &Outcome, lengths: [usize; 3]) -> Outcome {
    let short = lengths
        .iter()
        .zip(LEAST)
        .any(|(length, least)| *length < least);
    match outcome.number() {
        1 => Outcome::refused(1),
        _ if short => Outcome::refused(2),
        _ => outcome.clone(),
    }
}

/// Whether the buffers are left as SPECIFICATION 3.3 and 3.4 say, or the first byte that is not.
pub fn left(expected: &Outcome, after: [&[u8]; 3], before: [&[u8]; 3]) -> Result<(), String> {
    let fronts: [&[u8]; 3] = [&expected.result, &expected.trail, &[]];
    for at in 0..3 {
        let (after, before) = (after[at], before[at]);
        let same = match expected.number() {
            1 | 2 => equal(after, before),
            _ => {
                let (front, behind) = after.split_at(fronts[at].len());
                equal(front, fronts[at]).and_then(|()| zeros(behind, front.len()))
            }
        };
        same.map_err(|what| format!("{} {what}", NAMES[at]))?;
    }
    Ok(())
}

fn equal(got: &[u8], want: &[u8]) -> Result<(), String> {
    match got == want {
        true => Ok(()),
        false => differs(got, |at| want[at], 0),
    }
}

/// `from` is where the bytes stand in their buffer.
fn zeros(got: &[u8], from: usize) -> Result<(), String> {
    let mut parts = got.chunks(ZEROS.len());
    match parts.all(|part| part == &ZEROS[..part.len()]) {
        true => Ok(()),
        false => differs(got, |_| 0, from),
    }
}

fn differs(got: &[u8], want: impl Fn(usize) -> u8, from: usize) -> Result<(), String> {
    let at = (0..got.len())
        .find(|at| got[*at] != want(*at))
        .expect("they differ");
    let (place, got, want) = (from + at, got[at], want(at));
    Err(format!("byte {place} is {got}, and should be {want}"))
}

/// What a pass is lent, used again for each call.
#[derive(Default)]
pub struct Lent {
    sheet: Vec<u8>,
    areas: [Vec<u8>; 3],
    /// What is in the areas before a call.
    before: [Vec<u8>; 3],
}

impl Lent {
    /// Whether the pass answers as the outcome says, or what differs.
    pub fn one(
        &mut self,
        pass: Pass,
        sheet: &[u8],
        outcome: &Outcome,
        call: Call,
    ) -> Result<(), String> {
        let expected = promised(outcome, call.lengths);
        let numbers = self.called(pass, sheet, call);
        numbers.same("numbers", &expected.numbers, u32::to_string)?;
        self.beside(call)?;
        left(&expected, call.parts(&self.areas), call.parts(&self.before))
    }

    /// The outcome that the pass leaves, whatever it is, or what is left otherwise than any outcome is.
    pub fn asked(&mut self, pass: Pass, sheet: &[u8], call: Call) -> Result<Outcome, String> {
        let numbers = self.called(pass, sheet, call);
        let own = numbers.lent;
        numbers.same("numbers", &own, u32::to_string)?;
        self.beside(call)?;
        if own[0] != 0 && own[1..] != [0; 4] {
            return Err(format!("numbers {own:?} are those of no refusal"));
        }
        let after = call.parts(&self.areas);
        let front = |at: usize| after[at].get(..own[3 + at] as usize);
        let (Some(result), Some(trail)) = (front(0), front(1)) else {
            return Err(format!("numbers {own:?} are of more than is lent"));
        };
        let outcome = Outcome {
            numbers: own,
            result: result.to_vec(),
            trail: trail.to_vec(),
        };
        left(&outcome, after, call.parts(&self.before)).map(|()| outcome)
    }

    /// The numbers that the pass answers with.
    fn called(&mut self, pass: Pass, sheet: &[u8], call: Call) -> Guarded<[u32; 5]> {
        self.prepare(sheet, call);
        let mut numbers = Guarded::around([UNSET; 5]);
        let [result, trail, work] = &mut self.areas;
        let lent = [
            &mut result[call.part(0)],
            &mut trail[call.part(1)],
            &mut work[call.part(2)],
        ];
        pass(&self.sheet[call.starts[0]..], lent, &mut numbers.lent);
        numbers
    }

    fn prepare(&mut self, sheet: &[u8], call: Call) {
        self.sheet.clear();
        self.sheet.resize(call.starts[0], 0);
        self.sheet.extend_from_slice(sheet);
        for at in 0..3 {
            let length = call.part(at).end + GUARD;
            let area = &mut self.areas[at];
            if area.len() < length {
                area.resize(length, 0);
            }
            match call.junk {
                Junk::All(byte) => area.fill(byte),
                Junk::Mixed => area
                    .chunks_mut(MIXED.len())
                    .for_each(|part| part.copy_from_slice(&MIXED[..part.len()])),
                Junk::Left => {}
            }
            self.before[at].clone_from(area);
        }
    }

    fn beside(&self, call: Call) -> Result<(), String> {
        for (at, name) in NAMES.iter().enumerate() {
            let (after, before) = (&self.areas[at], &self.before[at]);
            let Range { start, end } = call.part(at);
            if after[..start] != before[..start] || after[end..] != before[end..] {
                return Err(format!("bytes beside the {name} were touched"));
            }
        }
        Ok(())
    }
}
