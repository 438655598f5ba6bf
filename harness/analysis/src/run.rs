//! A run: which sheets are compared, and how each is asked about.

use reader::damage;
use reader::random::Random;
use reader::tree::Sheet;
use sheets::codec;
use sheets::generate;
use sheets::names::Names;
use sheets::print::{Style, print};

use crate::compare::{Call, Finder, Lent, WORK};
use crate::{grow, wide};

/// The sheet number `index` of the run `seed`: raw bytes, good and damaged sheets of the reader's
/// generator, of the profiles, and of `grow`; three in four with other names, one in two with other precedences.
pub fn sheet(seed: u64, index: u64) -> Vec<u8> {
    let mut random = Random::of(seed, index);
    let bytes = match index % 16 {
        0..=2 => reader::sheets::sheet(seed, index),
        3..=5 => profile(&mut random),
        _ => {
            let mut sheet = Sheet::of(&grow::unit(&mut random));
            if random.once_in(5) {
                damage::edit(&mut sheet, &mut random);
            }
            sheet.bytes()
        }
    };
    wide::altered(bytes, &mut random)
}

fn profile(random: &mut Random) -> Vec<u8> {
    let names: Vec<&str> = generate::names().collect();
    let name = names[random.below(names.len())];
    generate::bytes(name, random.draw()).expect("a name of the list")
}

/// How many sheets got which number, 0 for those accepted, and how many have cycles in a reading.
#[derive(Debug, Default, PartialEq, Eq)]
pub struct Tally {
    pub answers: [u64; 7],
    pub cyclic: u64,
}

impl Tally {
    pub fn sheets(&self) -> u64 {
        self.answers.iter().sum()
    }
}

#[derive(Debug)]
pub struct Difference {
    pub name: String,
    pub sheet: Vec<u8>,
    pub what: String,
}

impl Difference {
    /// With the sheet in hex, and in the notation where it can be read.
    pub fn told(self) -> String {
        let hex: String = self.sheet.iter().map(|b| format!("{b:02x}")).collect();
        let shown = codec::read(&self.sheet);
        let shown = shown.map(|sheet| print(&sheet, &Names::default(), Style::Plain));
        let shown = shown.unwrap_or_default();
        format!("{}: {}\n{hex}\n{shown}", self.name, self.what)
    }
}

pub struct Run<'a> {
    finder: Finder<'a>,
    lent: Lent,
    pub tally: Tally,
}

impl<'a> Run<'a> {
    pub fn new(finder: Finder<'a>) -> Run<'a> {
        Run {
            finder,
            lent: Lent::new(),
            tally: Tally::default(),
        }
    }

    /// Asks about `count` sheets of the run `seed`, up to the first difference.
    pub fn seeds(&mut self, seed: u64, count: u64) -> Result<(), Difference> {
        (0..count).try_for_each(|index| {
            let name = format!("sheet {index} of seed {seed}");
            self.ask(name, &sheet(seed, index), index)
        })
    }

    /// Asks about a sheet in both readings; `turn` goes through the work areas that are lent.
    pub fn ask(&mut self, name: String, sheet: &[u8], turn: u64) -> Result<(), Difference> {
        let mut cyclic = false;
        let mut answer = 0;
        for call in calls(turn) {
            let found = self.lent.one(self.finder, sheet, call);
            let found = found.map_err(|what| Difference {
                name: name.clone(),
                sheet: sheet.to_vec(),
                what: format!("{what} ({call:?})"),
            })?;
            if WORK <= call.work {
                answer = found.numbers[0] as usize;
                cyclic |= found.numbers[2] != 0;
            }
        }
        self.tally.answers[answer] += 1;
        self.tally.cyclic += u64::from(cyclic);
        Ok(())
    }
}

/// Both readings, and every fourth time one of them with a work area that is too short.
fn calls(turn: u64) -> Vec<Call> {
    const NUMBERS: [u32; 5] = [1, 2, 256, 0x8000_0000, u32::MAX];
    const LENGTHS: [usize; 7] = [WORK, WORK, WORK + 1, WORK, WORK + 4_096, WORK, 2 * WORK];
    const SHORT: [usize; 4] = [WORK - 1, WORK - 1, WORK - 4, 0];
    let turn = turn as usize;
    let textbook = NUMBERS[turn % NUMBERS.len()];
    let work = LENGTHS[turn % LENGTHS.len()];
    let call = |textbook, work| Call {
        textbook,
        work,
        start: turn % 9,
    };
    let mut calls = vec![call(0, work), call(textbook, work)];
    if turn % 4 == 3 {
        let short = SHORT[turn / 8 % SHORT.len()];
        calls.push(call([0, textbook][turn / 4 % 2], short));
    }
    calls
}
