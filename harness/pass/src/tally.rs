//! What a run met: sheets by their outcome, in both readings.

use std::fmt;

use crate::outcome::{Judged, Outcome};

/// Sheets, by what was answered.
#[derive(Clone, Copy, Debug, Default, PartialEq, Eq)]
pub struct Answers {
    /// By number, 0 for those accepted; 2 belongs to the buffers and is never met.
    pub numbers: [u64; 10],
    /// With a plan; with more than one.
    pub joined: u64,
    pub again: u64,
}

#[derive(Clone, Copy, Debug, Default, PartialEq, Eq)]
pub struct Tally {
    /// In the original's reading, then in the textbook's.
    pub answers: [Answers; 2],
    /// Sheets with a symbol that may be absent; those answered otherwise for it.
    pub folded: u64,
    pub parted: u64,
    /// Of the sheets with the end of input that are not refused by 1 to 6, what was answered in the original's reading.
    pub ends: Answers,
    /// Accepted sheets in which two names have one remainder modulo 65,536; those of them that are joined.
    pub alike: u64,
    pub alike_joined: u64,
    /// Accepted sheets in which a call has a precedence; those of them that are joined.
    pub raised: u64,
    pub raised_joined: u64,
    /// Calls, and those with a buffer that is too short.
    pub calls: u64,
    pub short: u64,
    /// The longest result, and the longest trail, in bytes.
    pub result: usize,
    pub trail: usize,
}

impl Tally {
    pub fn sheets(&self) -> u64 {
        self.answers[0].numbers.iter().sum()
    }

    pub fn add(&mut self, judged: &Judged) {
        let [original, textbook] = &judged.readings;
        self.answers[0].add(original);
        self.answers[1].add(textbook);
        self.folded += u64::from(judged.folded);
        self.parted += u64::from(original != textbook);
        if judged.ends {
            self.ends.add(original);
        }
        let accepted = original.number() == 0;
        self.alike += u64::from(judged.alike && accepted);
        self.alike_joined += u64::from(judged.alike && original.plans() != 0);
        self.raised += u64::from(judged.raised && accepted);
        self.raised_joined += u64::from(judged.raised && original.plans() != 0);
        self.result = self.result.max(original.result.len());
        self.trail = self.trail.max(original.trail.len());
    }

    /// With what another run met.
    pub fn and(mut self, other: &Tally) -> Tally {
        for (own, more) in self.answers.iter_mut().zip(&other.answers) {
            own.and(more);
        }
        self.folded += other.folded;
        self.parted += other.parted;
        self.ends.and(&other.ends);
        self.alike += other.alike;
        self.alike_joined += other.alike_joined;
        self.raised += other.raised;
        self.raised_joined += other.raised_joined;
        self.calls += other.calls;
        self.short += other.short;
        self.result = self.result.max(other.result);
        self.trail = self.trail.max(other.trail);
        self
    }
}

impl Answers {
    pub fn add(&mut self, outcome: &Outcome) {
        self.numbers[outcome.number() as usize] += 1;
        self.joined += u64::from(outcome.plans() != 0);
        self.again += u64::from(1 < outcome.plans());
    }

    pub fn and(&mut self, other: &Answers) {
        for (number, more) in self.numbers.iter_mut().zip(other.numbers) {
            *number += more;
        }
        self.joined += other.joined;
        self.again += other.again;
    }
}

impl fmt::Display for Answers {
    fn fmt(&self, out: &mut fmt::Formatter) -> fmt::Result {
        let Answers {
            numbers, joined, ..
        } = self;
        write!(out, "accepted {}, joined {joined}, refused", numbers[0])?;
        for (number, count) in numbers.iter().enumerate().skip(1) {
            if number != 2 {
                write!(out, " {number}: {count}")?;
            }
        }
        Ok(())
    }
}
