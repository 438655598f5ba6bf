//! Holds another finder of facts to the second opinion, one call at a time.

use crate::facts::{Facts, RULES, Row, Rows, facts};
use crate::guarded::Guarded;

/// The least length of a work area.
pub const WORK: usize = 65_536;
/// Bytes behind the work area, which no finder may touch, as those in front of its start.
const GUARD: usize = 64;
const UNSET: u32 = 0xdead_beef;
const UNSET_LONG: u64 = 0xdead_beef_dead_beef;

/// The arrays that a finder fills.
pub struct Outputs<'a> {
    pub numbers: &'a mut [u32; 3],
    pub marks: &'a mut [u64; 4],
    pub calls: &'a mut Rows,
    pub corners: &'a mut Rows,
    pub cycles: &'a mut Rows,
}

/// A finder that is handed a sheet, a work area, the number of a reading and what it is to fill.
pub type Finder<'a> = &'a dyn Fn(&[u8], &mut [u8], u32, Outputs);

/// How a sheet is asked about.
#[derive(Clone, Copy, Debug)]
pub struct Call {
    /// 0 is the original's reading.
    pub textbook: u32,
    /// The length of the work area.
    pub work: usize,
    /// Bytes in front of the work area, so that it need not be aligned.
    pub start: usize,
}

/// What a finder is lent, used again for each call.
pub struct Lent {
    work: Vec<u8>,
    /// What is in `work` before a call, and zeros of the same length.
    junk: Vec<u8>,
    zeros: Vec<u8>,
    arrays: Arrays,
}

impl Default for Lent {
    fn default() -> Lent {
        Lent::new()
    }
}

impl Lent {
    pub fn new() -> Lent {
        Lent {
            work: Vec::new(),
            junk: Vec::new(),
            zeros: Vec::new(),
            arrays: Arrays::unset(),
        }
    }

    /// The facts on which both agree, or what differs.
    pub fn one(&mut self, finder: Finder, sheet: &[u8], call: Call) -> Result<Facts, String> {
        self.spoil(call.start + call.work + GUARD);
        let work = &mut self.work[call.start..][..call.work];
        finder(sheet, work, call.textbook, self.arrays.outputs());
        let expected = expected(sheet, call);
        self.arrays.same(&expected)?;
        self.work_as_promised(expected.numbers[0], call)?;
        Ok(expected)
    }

    /// Junk in all that is lent; no byte of it is 0.
    fn spoil(&mut self, length: usize) {
        if self.junk.len() < length {
            self.junk = (0..length).map(|at| (at * 29 / 3) as u8 | 1).collect();
            self.zeros = vec![0; length];
            self.work = vec![0; length];
        }
        self.work[..length].copy_from_slice(&self.junk[..length]);
        self.arrays = Arrays::unset();
    }

    /// Zeros from end to end; under refusals 1 and 2 it is left alone.
    fn work_as_promised(&self, refusal: u32, call: Call) -> Result<(), String> {
        let end = call.start + call.work;
        let left_alone = matches!(refusal, 1 | 2);
        let want = if left_alone { &self.junk } else { &self.zeros };
        if self.work[call.start..end] != want[call.start..end] {
            let at = (call.start..end).find(|at| self.work[*at] != want[*at]);
            let at = at.expect("they differ");
            let (place, got) = (at - call.start, self.work[at]);
            return Err(format!("byte {place} of the work area is {got}"));
        }
        let kept = |from: usize, to: usize| self.work[from..to] == self.junk[from..to];
        match kept(0, call.start) && kept(end, end + GUARD) {
            true => Ok(()),
            false => Err("bytes beside the work area were touched".to_string()),
        }
    }
}

/// Refusal 2 belongs to the work area; 1 comes before it.
fn expected(sheet: &[u8], call: Call) -> Facts {
    let found = facts(sheet, call.textbook != 0);
    match found.numbers[0] {
        1 => found,
        _ if call.work < WORK => Facts::refused(2),
        _ => found,
    }
}

/// The arrays that are lent, each with guards.
struct Arrays {
    numbers: Guarded<[u32; 3]>,
    marks: Guarded<[u64; 4]>,
    calls: Guarded<Rows>,
    corners: Guarded<Rows>,
    cycles: Guarded<Rows>,
}

impl Arrays {
    fn unset() -> Arrays {
        let rows = || Guarded::around([[UNSET_LONG; 2]; RULES]);
        Arrays {
            numbers: Guarded::around([UNSET; 3]),
            marks: Guarded::around([UNSET_LONG; 4]),
            calls: rows(),
            corners: rows(),
            cycles: rows(),
        }
    }

    fn outputs(&mut self) -> Outputs<'_> {
        Outputs {
            numbers: &mut self.numbers.lent,
            marks: &mut self.marks.lent,
            calls: &mut self.calls.lent,
            corners: &mut self.corners.lent,
            cycles: &mut self.cycles.lent,
        }
    }

    fn same(&self, expected: &Facts) -> Result<(), String> {
        let hex = |row: &Row| format!("{:x} {:x}", row[0], row[1]);
        self.numbers
            .same("numbers", &expected.numbers, u32::to_string)?;
        self.marks
            .same("marks", &expected.marks, |word| format!("{word:x}"))?;
        self.calls.same("calls", &expected.calls, hex)?;
        self.corners.same("corners", &expected.corners, hex)?;
        self.cycles.same("cycles", &expected.cycles, hex)
    }
}
