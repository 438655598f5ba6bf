//! Holds a planner to the original's decisions, one call at a time.

use analysis::compare::WORK;
use analysis::facts::{RULES, Row};
use analysis::guarded::Guarded;

use crate::answer::Answer;
use crate::judge::Judged;

/// Bytes behind the work area, which no planner may touch, as those in front of its start.
const GUARD: usize = 64;
const UNSET: u32 = 0xdead_beef;
const UNSET_LONG: u64 = 0xdead_beef_dead_beef;

/// Is handed a sheet, a work area, the number of a reading, that of a cycle, and what it is to fill.
pub type Nth<'a> = &'a dyn Fn(&[u8], &mut [u8], u32, u32, &mut [u32; 8], &mut Row);
/// The same without the number of a cycle; what it is to fill are numbers, cycle, removable rules, clauses.
pub type First<'a> = &'a dyn Fn(&[u8], &mut [u8], u32, Filled);

/// What `first_plan` fills.
pub struct Filled<'a> {
    pub numbers: &'a mut [u32; 8],
    pub cycle: &'a mut Row,
    pub removable: &'a mut Row,
    pub clauses: &'a mut [u32; RULES],
}

#[derive(Clone, Copy)]
pub struct Planner<'a> {
    pub nth: Nth<'a>,
    pub first: First<'a>,
}

#[derive(Clone, Copy, Debug, PartialEq, Eq)]
pub enum Question {
    Nth(u32),
    First,
}

/// How a sheet is asked about.
#[derive(Clone, Copy, Debug)]
pub struct Call {
    pub question: Question,
    /// 0 is the original's reading.
    pub textbook: u32,
    /// The length of the work area.
    pub work: usize,
    /// Bytes in front of the work area, so that it need not be aligned.
    pub start: usize,
    pub junk: Junk,
}

/// What is in the work area before a call.
#[derive(Clone, Copy, Debug, PartialEq, Eq)]
pub enum Junk {
    /// One byte everywhere.
    All(u8),
    /// Bytes that differ, none of them 0.
    Mixed,
    /// What the call before left there.
    Left,
}

/// What a planner is lent, used again for each call.
#[derive(Default)]
pub struct Lent {
    work: Vec<u8>,
    /// What is in `work` before a call.
    before: Vec<u8>,
}

impl Lent {
    /// Whether the planner answers as the original decides for a sheet that was judged, or what differs.
    pub fn one(
        &mut self,
        planner: Planner,
        sheet: &[u8],
        judged: Result<&Judged, u32>,
        call: Call,
    ) -> Result<Answer, String> {
        let expected = expected(judged, call);
        self.prepare(call);
        let work = &mut self.work[call.start..][..call.work];
        match call.question {
            Question::Nth(nth) => asked_nth(planner.nth, sheet, work, (call, nth), &expected)?,
            Question::First => asked_first(planner.first, sheet, work, call, &expected)?,
        }
        self.left_alone(expected.numbers[0], call)?;
        let work = &self.work[call.start..][..call.work];
        match (&expected.list, judged) {
            (Some(list), Ok(judged)) => list.stands(work, &judged.words, &judged.places)?,
            _ if matches!(expected.numbers[0], 1 | 2) => {}
            _ => all_zeros(work)?,
        }
        Ok(expected)
    }

    fn prepare(&mut self, call: Call) {
        let length = call.start + call.work + GUARD;
        if self.work.len() < length {
            self.work.resize(length, 0);
        }
        match call.junk {
            Junk::All(byte) => self.work.fill(byte),
            Junk::Mixed => (0..)
                .zip(&mut self.work)
                .for_each(|(at, byte)| *byte = (at * 29usize / 3) as u8 | 1),
            Junk::Left => {}
        }
        self.before.clone_from(&self.work);
    }

    /// Nothing beside the work area is touched, and under refusals 1 and 2 nothing at all.
    fn left_alone(&self, refusal: u32, call: Call) -> Result<(), String> {
        let end = call.start + call.work;
        let kept = |from: usize, to: usize| self.work[from..to] == self.before[from..to];
        if !kept(0, call.start) || !kept(end, self.work.len()) {
            return Err("bytes beside the work area were touched".to_string());
        }
        match matches!(refusal, 1 | 2) && !kept(call.start, end) {
            true => Err(format!("the work area was touched under refusal {refusal}")),
            false => Ok(()),
        }
    }
}

/// Refusal 2 belongs to the work area; 1 comes before it.
fn expected(judged: Result<&Judged, u32>, call: Call) -> Answer {
    match (judged, call.question) {
        (Err(1), _) => Answer::refused(1),
        _ if call.work < WORK => Answer::refused(2),
        (Err(number), _) => Answer::refused(number),
        (Ok(judged), Question::Nth(nth)) => Answer::nth(judged, nth),
        (Ok(judged), Question::First) => Answer::first(judged),
    }
}

fn asked_nth(
    planner: Nth,
    sheet: &[u8],
    work: &mut [u8],
    (call, nth): (Call, u32),
    expected: &Answer,
) -> Result<(), String> {
    let mut numbers = Guarded::around([UNSET; 8]);
    let mut removable = Guarded::around([UNSET_LONG; 2]);
    planner(
        sheet,
        work,
        call.textbook,
        nth,
        &mut numbers.lent,
        &mut removable.lent,
    );
    numbers.same("numbers", &expected.numbers, u32::to_string)?;
    removable.same("removable", &expected.removable, hex)
}

fn asked_first(
    planner: First,
    sheet: &[u8],
    work: &mut [u8],
    call: Call,
    expected: &Answer,
) -> Result<(), String> {
    let mut numbers = Guarded::around([UNSET; 8]);
    let mut cycle = Guarded::around([UNSET_LONG; 2]);
    let mut removable = Guarded::around([UNSET_LONG; 2]);
    let mut clauses = Guarded::around([UNSET; RULES]);
    let filled = Filled {
        numbers: &mut numbers.lent,
        cycle: &mut cycle.lent,
        removable: &mut removable.lent,
        clauses: &mut clauses.lent,
    };
    planner(sheet, work, call.textbook, filled);
    numbers.same("numbers", &expected.numbers, u32::to_string)?;
    cycle.same("cycle", &expected.cycle, hex)?;
    removable.same("removable", &expected.removable, hex)?;
    clauses.same("clauses", &expected.clauses, u32::to_string)
}

/// Without a plan nothing of the work area stays.
fn all_zeros(work: &[u8]) -> Result<(), String> {
    match work.iter().position(|byte| *byte != 0) {
        None => Ok(()),
        Some(at) => Err(format!("byte {at} of the work area is not cleared")),
    }
}

fn hex(word: &u64) -> String {
    format!("{word:x}")
}
