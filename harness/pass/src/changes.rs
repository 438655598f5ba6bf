//! Changes of a sheet under which the pass should answer alike: other names, other carried numbers, other precedences.

use std::collections::{BTreeSet, HashMap};

use reader::random::Random;
use sheets::codec::MOST_NAME;
use sheets::tree::Sheet;
use sheets::walk::{Mark, marks, precedences, rename};

/// A change of a sheet in place.
pub type Change<'a> = &'a dyn Fn(&mut Sheet);

/// One function for names of every sort.
#[derive(Clone, Debug, Default)]
pub struct Renaming {
    to: HashMap<u32, u32>,
}

impl Renaming {
    /// By a table, of which the last word on a name counts.
    pub fn of(table: impl IntoIterator<Item = (u32, u32)>) -> Renaming {
        Renaming {
            to: table.into_iter().collect(),
        }
    }

    /// One-to-one on these names: among themselves, to either end of what a name may be, to few low halves, or anywhere.
    pub fn random(names: &BTreeSet<u32>, random: &mut Random) -> Renaming {
        let count = names.len() as u32;
        let mut to: Vec<u32> = match random.below(4) {
            0 => names.iter().copied().collect(),
            1 => (1..=count).collect(),
            2 => (0..count).map(|at| MOST_NAME - at).collect(),
            _ => random.names(names.len()),
        };
        random.shuffle(&mut to);
        Renaming::of(names.iter().copied().zip(to))
    }

    /// How many names get another one.
    pub fn moved(&self) -> usize {
        self.to.iter().filter(|(from, to)| from != to).count()
    }

    /// Names that it does not know become 0, which is no name: a pass that makes up names is found out by it.
    pub fn apply(&self, sheet: &mut Sheet) {
        rename(sheet, |name| self.to.get(&name).copied().unwrap_or(0));
    }
}

/// Every carried number is one of these, in the order of the sheet's words; there must be enough.
pub fn carry(sheet: &mut Sheet, mut numbers: impl Iterator<Item = u32>) {
    marks(sheet, &mut |mark, word| {
        if mark == Mark::Carried {
            *word = numbers.next().expect("a number for each");
        }
    });
}

/// Every carried number is 0.
pub fn carry_nothing(sheet: &mut Sheet) {
    carry(sheet, std::iter::repeat(0));
}

/// The carried numbers of a sheet.
pub fn carried_in(sheet: &Sheet) -> Vec<u32> {
    let mut carried = Vec::new();
    marks(&mut sheet.clone(), &mut |mark, word| {
        if mark == Mark::Carried {
            carried.push(*word);
        }
    });
    carried
}

/// The third word of every call is one of these, in the order of the sheet's words; there must be enough.
pub fn raise(sheet: &mut Sheet, mut words: impl Iterator<Item = u32>) {
    precedences(sheet, &mut |word| {
        *word = words.next().expect("a word for each");
    });
}

/// No call has a precedence.
pub fn raise_nothing(sheet: &mut Sheet) {
    raise(sheet, std::iter::repeat(0));
}

/// The third words of a sheet's calls.
pub fn raised_in(sheet: &Sheet) -> Vec<u32> {
    let mut raised = Vec::new();
    precedences(&mut sheet.clone(), &mut |word| raised.push(*word));
    raised
}
