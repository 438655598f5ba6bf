//! A run: which sheets are compared, and what is lent for each.

use std::iter::{Skip, StepBy};
use std::ops::Range;
use std::sync::atomic::{AtomicBool, Ordering};

use analysis::run::Difference;
use analysis::wide;
use plans::compare::Junk;
use reader::damage;
use reader::random::Random;
use reader::tree::Sheet;
use sheets::generate;

use crate::compare::{Call, LEAST, Lent, Pass};
use crate::grow;
use crate::outcome::judged;
use crate::tally::Tally;

/// So many numbers of a run have sheets of all sorts alike. Behind them only one number in so many has: large sheets take
/// ten times as long as the others, and a long run is to have millions of these.
const EVEN: u64 = 200_000;
const RARE: u64 = 16;

/// Which sort of sheet a number has, as `sheet` lists them.
fn sort(index: u64) -> u64 {
    match index < EVEN || (index / 16).is_multiple_of(RARE) {
        true => index % 16,
        false => index % 4,
    }
}

/// The sheet number `index` of the run `seed`: raw bytes, good and damaged sheets of the reader's generator, of the
/// profiles, of the planner's generator, and of `grow`; three in four with other names, one in two with other precedences.
pub fn sheet(seed: u64, index: u64) -> Vec<u8> {
    let mut random = Random::of(seed, index);
    let bytes = match sort(index) {
        0 | 1 => reader::sheets::sheet(seed, index),
        2 => generate::damaged(random.draw()),
        3..=7 => {
            let profile = &generate::PROFILES[random.below(generate::PROFILES.len())];
            generate::bytes(profile.name, random.draw()).expect("a name of the list")
        }
        8..=12 => {
            let mut sheet = Sheet::of(&grow::unit(&mut random));
            if random.once_in(12) {
                damage::edit(&mut sheet, &mut random);
            }
            sheet.bytes()
        }
        _ => grow::sheet(&mut random),
    };
    wide::altered(bytes, &mut random)
}

/// Asks about the sheets of these numbers in the run `seed`, up to the first that fails, or until it is told to stop.
pub fn each<E>(
    seed: u64,
    numbers: impl Iterator<Item = u64>,
    stop: &AtomicBool,
    mut ask: impl FnMut(u64, String, &[u8]) -> Result<(), E>,
) -> Result<(), E> {
    for index in numbers {
        if stop.load(Ordering::Relaxed) {
            break;
        }
        let name = format!("sheet {index} of seed {seed}");
        ask(index, name, &sheet(seed, index))
            .inspect_err(|_| stop.store(true, Ordering::Relaxed))?;
    }
    Ok(())
}

pub struct Run<'a> {
    /// The entries for the original's reading and for the textbook's.
    entries: [Pass<'a>; 2],
    lent: Lent,
    /// Sheets asked about; each is lent other buffers.
    turn: usize,
    pub tally: Tally,
}

impl<'a> Run<'a> {
    pub fn new(entries: [Pass<'a>; 2]) -> Run<'a> {
        Run {
            entries,
            lent: Lent::default(),
            turn: 0,
            tally: Tally::default(),
        }
    }

    /// Asks about the sheets of these numbers in the run `seed`, up to the first difference, or until it is told to stop.
    pub fn seeds(
        &mut self,
        seed: u64,
        numbers: impl Iterator<Item = u64>,
        stop: &AtomicBool,
    ) -> Result<(), Difference> {
        each(seed, numbers, stop, |index, name, sheet| {
            self.turn = index as usize;
            self.ask(name, sheet)
        })
    }

    /// Asks about a sheet in both readings, and with buffers that are too short.
    pub fn ask(&mut self, name: String, sheet: &[u8]) -> Result<(), Difference> {
        let judged = judged(sheet);
        self.tally.add(&judged);
        self.turn += 1;
        for (reading, outcome) in judged.readings.iter().enumerate() {
            for call in calls(self.turn + reading) {
                self.tally.calls += 1;
                self.tally.short += u64::from(
                    call.lengths
                        .iter()
                        .zip(LEAST)
                        .any(|(own, least)| *own < least),
                );
                let answer = self.lent.one(self.entries[reading], sheet, outcome, call);
                answer.map_err(|what| Difference {
                    name: name.clone(),
                    sheet: sheet.to_vec(),
                    what: format!("{what} ({}, {call:?})", ["pass", "pass_textbook"][reading]),
                })?;
            }
        }
        Ok(())
    }
}

/// Asks about the sheets of these numbers with as many threads as there are processors.
pub fn side_by_side(
    entries: [Pass; 2],
    seed: u64,
    numbers: Range<u64>,
) -> Result<Tally, Difference> {
    let tallies = shared(numbers, |own, stop| {
        let mut run = Run::new(entries);
        run.seeds(seed, own, stop).map(|()| run.tally)
    })?;
    let both = |tally: Tally, more| tally.and(more);
    Ok(tallies.iter().fold(Tally::default(), both))
}

/// A thread's part of the numbers.
type Part = StepBy<Skip<Range<u64>>>;

/// What as many threads as there are processors make of these numbers between them, unless one of them fails.
pub fn shared<T: Send, E: Send>(
    numbers: Range<u64>,
    run: impl Fn(Part, &AtomicBool) -> Result<T, E> + Sync,
) -> Result<Vec<T>, E> {
    let threads = std::thread::available_parallelism()
        .map_or(1, usize::from)
        .min(8);
    let stop = AtomicBool::new(false);
    let one = |first: usize| run(numbers.clone().skip(first).step_by(threads), &stop);
    std::thread::scope(|scope| {
        let one = &one;
        let begun: Vec<_> = (0..threads)
            .map(|first| scope.spawn(move || one(first)))
            .collect();
        let ended = begun.into_iter().map(|own| own.join().expect("a run ends"));
        // All are waited for, before one that failed is told.
        ended.collect::<Vec<_>>().into_iter().collect()
    })
}

/// With buffers that are long enough, other ones at each turn.
pub fn call(turn: usize) -> Call {
    const MORE: [usize; 7] = [0, 0, 1, 0, 4_096, 3, 65_536];
    const JUNK: [Junk; 6] = [
        Junk::Mixed,
        Junk::Left,
        Junk::All(0xff),
        Junk::Left,
        Junk::All(0),
        Junk::All(0x80),
    ];
    let more = |at: usize| LEAST[at] + MORE[(turn + 2 * at) % MORE.len()];
    Call {
        lengths: [0, 1, 2].map(more),
        starts: [0, 1, 2, 3].map(|at| (turn + at) % 9),
        junk: JUNK[turn % JUNK.len()],
    }
}

/// The call, and every eighth time the same with buffers that are too short: each alone, then some of them.
fn calls(turn: usize) -> impl Iterator<Item = Call> {
    let call = call(turn);
    let short = match turn % 8 {
        3 => too_short(turn / 8),
        _ => Vec::new(),
    };
    let short = short
        .into_iter()
        .map(move |lengths| Call { lengths, ..call });
    std::iter::once(call).chain(short)
}

fn too_short(turn: usize) -> Vec<[usize; 3]> {
    let one = |short: usize| {
        let mut lengths = LEAST;
        lengths[short] -= 1;
        lengths
    };
    const SOME: [[usize; 3]; 6] = [
        [0, 65_536, 65_536],
        [32_768, 0, 65_536],
        [32_768, 65_536, 0],
        [0, 0, 0],
        [32_764, 65_532, 65_532],
        [65_536, 32_768, 65_536],
    ];
    vec![one(0), one(1), one(2), SOME[turn % SOME.len()]]
}
