//! A run: which sheets are compared, and how each is asked about.

use std::ops::Range;

use analysis::compare::WORK;
use analysis::run::Difference;
use analysis::wide;
use reader::damage;
use reader::random::Random;
use reader::tree::Sheet;
use sheets::generate;

use crate::compare::{Call, Junk, Lent, Planner, Question};
use crate::grow;
use crate::judge::{Judged, judged};
use crate::tally::Tally;

/// The sheet number `index` of the run `seed`: of the analysis' run, of the profiles, and of `grow`; three in four with other
/// names, one in two with other precedences.
pub fn sheet(seed: u64, index: u64) -> Vec<u8> {
    let mut random = Random::of(seed, index);
    let bytes = match index % 16 {
        0..=2 => analysis::run::sheet(seed, index),
        3..=7 => profile(&mut random),
        _ => {
            let mut sheet = Sheet::of(&grow::unit(&mut random));
            if random.once_in(12) {
                damage::edit(&mut sheet, &mut random);
            }
            sheet.bytes()
        }
    };
    wide::altered(bytes, &mut random)
}

/// Of a profile; those about applying a plan seldom.
fn profile(random: &mut Random) -> Vec<u8> {
    loop {
        let profile = &generate::PROFILES[random.below(generate::PROFILES.len())];
        let about_applying = ["near-8", "near-9", "just-9"].contains(&profile.name);
        if !about_applying || random.once_in(4) {
            return generate::bytes(profile.name, random.draw()).expect("a name of the list");
        }
    }
}

pub struct Run<'a> {
    planner: Planner<'a>,
    lent: Lent,
    /// Calls made; each is lent another work area.
    turn: usize,
    pub tally: Tally,
}

impl<'a> Run<'a> {
    pub fn new(planner: Planner<'a>) -> Run<'a> {
        Run {
            planner,
            lent: Lent::default(),
            turn: 0,
            tally: Tally::default(),
        }
    }

    /// Asks about the sheets of these numbers in the run `seed`, up to the first difference.
    pub fn seeds(&mut self, seed: u64, mut numbers: Range<u64>) -> Result<(), Difference> {
        numbers.try_for_each(|index| {
            let name = format!("sheet {index} of seed {seed}");
            self.ask(name, &sheet(seed, index))
        })
    }

    /// Asks about every cycle of a sheet, one that is not there, and the first plan, in both readings.
    pub fn ask(&mut self, name: String, sheet: &[u8]) -> Result<(), Difference> {
        let judged = judged(sheet);
        self.tally.add(&judged);
        for reading in [0, 1] {
            let judged = judged.as_ref().map(|both| &both[reading]).map_err(|n| *n);
            self.reading(sheet, reading, judged)
                .map_err(|what| Difference {
                    name: name.clone(),
                    sheet: sheet.to_vec(),
                    what,
                })?;
        }
        Ok(())
    }

    fn reading(
        &mut self,
        sheet: &[u8],
        reading: usize,
        judged: Result<&Judged, u32>,
    ) -> Result<(), String> {
        let cycles = judged.map_or(0, |judged| judged.cycles.len() as u32);
        let beyond = [cycles, cycles + 1, 128, u32::MAX][self.turn % 4];
        let asked = (0..cycles).chain([beyond]).map(Question::Nth);
        for question in asked.chain([Question::First]) {
            self.turn += 1;
            for call in calls(self.turn, reading, question) {
                let answer = self.lent.one(self.planner, sheet, judged, call);
                answer.map_err(|what| format!("{what} ({call:?})"))?;
            }
        }
        Ok(())
    }
}

/// The call, and every eighth time the same with a work area that is too short.
fn calls(turn: usize, reading: usize, question: Question) -> impl Iterator<Item = Call> {
    const NUMBERS: [u32; 5] = [1, 2, 256, 0x8000_0000, u32::MAX];
    const LENGTHS: [usize; 7] = [WORK, WORK, WORK + 1, WORK, WORK + 4_096, WORK, 2 * WORK];
    const SHORT: [usize; 4] = [WORK - 1, WORK - 1, WORK - 4, 0];
    const JUNK: [Junk; 6] = [
        Junk::Mixed,
        Junk::Left,
        Junk::All(0xff),
        Junk::Left,
        Junk::All(0),
        Junk::All(0x80),
    ];
    let call = Call {
        question,
        textbook: [0, NUMBERS[turn % NUMBERS.len()]][reading],
        work: LENGTHS[turn % LENGTHS.len()],
        start: turn % 9,
        junk: JUNK[turn % JUNK.len()],
    };
    let short = (turn % 8 == 3).then(|| Call {
        work: SHORT[turn / 8 % SHORT.len()],
        ..call
    });
    [Some(call), short].into_iter().flatten()
}
