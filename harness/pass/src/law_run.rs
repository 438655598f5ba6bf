//! A run of the four laws: of which sheets they are asked, and of whom.

use std::fmt;
use std::ops::Range;
use std::sync::atomic::AtomicBool;

use analysis::run::Difference;
use reader::grow::any_precedence;
use reader::random::Random;
use sheets::codec;
use sheets::tree::Sheet;
use sheets::walk::names_in;

use crate::changes::{Renaming, carried_in, carry, raise, raised_in};
use crate::compare::{Lent, Pass};
use crate::laws::{self, Asked, Breach};
use crate::outcome::Outcome;
use crate::program::{Fault, hex};
use crate::run::{call, each, shared};
use crate::tally::Answers;

/// Changes are drawn apart from the sheets of the same seed.
const APART: u64 = 0x6c61_7773;

/// Sheets that were changed, and those of them that are refused by 5 and by 6.
#[derive(Clone, Copy, Debug, Default, PartialEq, Eq)]
pub struct Changed {
    pub sheets: u64,
    pub refused: [u64; 2],
}

/// What a run met.
#[derive(Clone, Copy, Debug, Default, PartialEq, Eq)]
pub struct Counts {
    /// In the original's reading, then in the textbook's.
    pub answers: [Answers; 2],
    pub renamed: Changed,
    pub carried: Changed,
    pub raised: Changed,
    /// Results of the original that it joins in the other reading.
    pub across: [u64; 2],
    /// Calls of the pass that is not the original.
    pub calls: u64,
}

impl Counts {
    pub fn sheets(&self) -> u64 {
        self.answers[0].numbers.iter().sum()
    }

    fn add(&mut self, outcomes: &[Outcome; 2]) {
        for (answers, own) in self.answers.iter_mut().zip(outcomes) {
            answers.add(own);
        }
    }

    /// With what another run met.
    pub fn and(mut self, other: &Counts) -> Counts {
        for (own, more) in self.answers.iter_mut().zip(&other.answers) {
            own.and(more);
        }
        self.renamed.and(&other.renamed);
        self.carried.and(&other.carried);
        self.raised.and(&other.raised);
        for (own, more) in self.across.iter_mut().zip(other.across) {
            *own += more;
        }
        self.calls += other.calls;
        self
    }
}

impl Changed {
    fn add(&mut self, number: u32) {
        self.sheets += 1;
        self.refused[0] += u64::from(number == 5);
        self.refused[1] += u64::from(number == 6);
    }

    fn and(&mut self, other: &Changed) {
        self.sheets += other.sheets;
        for (own, more) in self.refused.iter_mut().zip(other.refused) {
            *own += more;
        }
    }
}

impl fmt::Display for Changed {
    fn fmt(&self, out: &mut fmt::Formatter) -> fmt::Result {
        let [five, six] = self.refused;
        write!(out, "{} (refused 5: {five} 6: {six})", self.sheets)
    }
}

/// Which law, of whom, and on which two sheets.
#[derive(Debug)]
pub struct Broken {
    pub first: Difference,
    pub second: Vec<u8>,
}

fn broken(name: &str, sheet: &[u8], who: &str) -> impl Fn(Breach) -> Broken {
    move |Breach { second, what }| Broken {
        first: Difference {
            name: name.to_owned(),
            sheet: sheet.to_vec(),
            what: format!("{what}, {who}"),
        },
        second,
    }
}

impl From<Broken> for Fault {
    fn from(Broken { first, second }: Broken) -> Fault {
        let fault = Fault::from(first);
        Fault {
            lines: format!("{}the second sheet: {}\n", fault.lines, hex(&second)),
            ..fault
        }
    }
}

/// The sheet with which a law is asked, and its changes.
struct Case<'a> {
    bytes: &'a [u8],
    tree: Sheet,
    renaming: Renaming,
    carried: Vec<u32>,
    raised: Vec<u32>,
}

/// What was answered for the sheet of a case, and which results the other reading joins.
struct Answered {
    first: [Outcome; 2],
    across: [bool; 2],
}

impl<'a> Case<'a> {
    fn random(bytes: &'a [u8], tree: Sheet, random: &mut Random) -> Case<'a> {
        Case {
            bytes,
            renaming: Renaming::random(&names_in(&tree), random),
            carried: carried_in(&tree).iter().map(|_| random.any()).collect(),
            raised: raised_in(&tree)
                .iter()
                .map(|_| any_precedence(random))
                .collect(),
            tree,
        }
    }

    /// Asks all laws, up to the first that is broken.
    fn ask(&self, ask: Asked) -> Result<Answered, Breach> {
        let first = laws::asked(ask, self.bytes).map_err(|own| own.of("one call"))?;
        let across = laws::own_result(ask, &first).map_err(|own| own.of("own result"))?;
        let rename = |sheet: &mut Sheet| self.renaming.apply(sheet);
        laws::renamed(ask, &self.tree, &first, &rename).map_err(|own| own.of("renaming"))?;
        let carry = |sheet: &mut Sheet| carry(sheet, self.carried.iter().copied());
        laws::carried(ask, &self.tree, &first, &carry).map_err(|own| own.of("carried numbers"))?;
        let raise = |sheet: &mut Sheet| raise(sheet, self.raised.iter().copied());
        laws::raised(ask, &self.tree, &first, &raise).map_err(|own| own.of("precedences"))?;
        Ok(Answered { first, across })
    }
}

/// The original, asked once about the bytes of one sheet, since it answers the same bytes alike.
fn original() -> impl FnMut(&[u8]) -> Result<[Outcome; 2], String> {
    let mut known: Option<(Vec<u8>, [Outcome; 2])> = None;
    move |sheet| match &known {
        Some((bytes, answers)) if bytes == sheet => Ok(answers.clone()),
        _ => {
            let answers = laws::original(sheet)?;
            known.get_or_insert((sheet.to_vec(), answers.clone()));
            Ok(answers)
        }
    }
}

pub struct LawRun<'a> {
    /// The entries for the original's reading and for the textbook's.
    entries: [Pass<'a>; 2],
    lent: Lent,
    /// Calls made; each is lent other buffers.
    turn: usize,
    pub counts: Counts,
}

impl<'a> LawRun<'a> {
    pub fn new(entries: [Pass<'a>; 2]) -> LawRun<'a> {
        LawRun {
            entries,
            lent: Lent::default(),
            turn: 0,
            counts: Counts::default(),
        }
    }

    /// Asks the laws of the sheets of these numbers in the run `seed`, up to the first breach, or until it is told to stop.
    pub fn seeds(
        &mut self,
        seed: u64,
        numbers: impl Iterator<Item = u64>,
        stop: &AtomicBool,
    ) -> Result<(), Broken> {
        each(seed, numbers, stop, |index, name, sheet| {
            self.turn = index as usize;
            self.ask(name, sheet, &mut Random::of(seed ^ APART, index))
        })
    }

    /// Asks the laws of a sheet, in both readings, of the original and of the pass.
    pub fn ask(&mut self, name: String, sheet: &[u8], random: &mut Random) -> Result<(), Broken> {
        let tree = match codec::tree(sheet) {
            Ok(tree) => tree,
            Err(number) => {
                let refused = || Outcome::refused(number);
                self.counts.add(&[refused(), refused()]);
                return Ok(());
            }
        };
        let case = Case::random(sheet, tree, random);
        let answered = case.ask(&mut original());
        let answered = answered.map_err(broken(&name, sheet, "the original"))?;
        let called = case.ask(&mut |sheet| self.called(sheet));
        called.map_err(broken(&name, sheet, "the pass"))?;
        self.count(&case, &answered);
        Ok(())
    }

    /// What both entries answer, with buffers that are long enough.
    fn called(&mut self, sheet: &[u8]) -> Result<[Outcome; 2], String> {
        let mut one = |reading: usize| {
            self.turn += 1;
            self.counts.calls += 1;
            let call = call(self.turn);
            let answer = self.lent.asked(self.entries[reading], sheet, call);
            answer.map_err(|what| format!("{what} ({call:?})"))
        };
        Ok([one(0)?, one(1)?])
    }

    fn count(&mut self, case: &Case, Answered { first, across }: &Answered) {
        self.counts.add(first);
        for (own, joined) in self.counts.across.iter_mut().zip(across) {
            *own += u64::from(*joined);
        }
        let number = first[0].number();
        if case.renaming.moved() != 0 {
            self.counts.renamed.add(number);
        }
        if carried_in(&case.tree) != case.carried {
            self.counts.carried.add(number);
        }
        if raised_in(&case.tree) != case.raised {
            self.counts.raised.add(number);
        }
    }
}

/// Asks the laws of the sheets of these numbers with as many threads as there are processors.
pub fn side_by_side(entries: [Pass; 2], seed: u64, numbers: Range<u64>) -> Result<Counts, Broken> {
    let counts = shared(numbers, |own, stop| {
        let mut run = LawRun::new(entries);
        run.seeds(seed, own, stop).map(|()| run.counts)
    })?;
    let both = |counts: Counts, more| counts.and(more);
    Ok(counts.iter().fold(Counts::default(), both))
}
