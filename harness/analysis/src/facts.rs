//! The facts about a sheet's rules, in the words in which the proved crate hands them over.

use sheets::codec;
use sheets::tree::{Kind, Rule, Sheet};
use sheets::walk;

use crate::cycles::cycles;
use crate::flat::Flat;

pub const RULES: usize = 128;

/// A set of rules: bit `j % 64` of word `j / 64` is the j-th rule of the sheet.
pub type Row = [u64; 2];
pub type Rows = [Row; RULES];

#[derive(Clone, Debug, PartialEq, Eq)]
pub struct Facts {
    /// 0 or the refusal, under which all else is 0; the rules; the cycles.
    pub numbers: [u32; 3],
    /// The row of the nullable rules, then that of the rules that cannot be inlined.
    pub marks: [u64; 4],
    pub calls: Rows,
    pub corners: Rows,
    /// Members of each cycle, the cycles in the order of SPECIFICATION 6.8.
    pub cycles: Rows,
}

impl Facts {
    /// Of a sheet without rules.
    pub const NONE: Facts = Facts {
        numbers: [0; 3],
        marks: [0; 4],
        calls: [[0; 2]; RULES],
        corners: [[0; 2]; RULES],
        cycles: [[0; 2]; RULES],
    };

    pub fn refused(number: u32) -> Facts {
        Facts {
            numbers: [number, 0, 0],
            ..Facts::NONE
        }
    }

    pub fn nullable(&self) -> Row {
        [self.marks[0], self.marks[1]]
    }

    /// The rules that cannot be inlined as satellites.
    pub fn fixed(&self) -> Row {
        [self.marks[2], self.marks[3]]
    }
}

/// The facts by the original's reading of left corners, or by the textbook's.
pub fn facts(sheet: &[u8], textbook: bool) -> Facts {
    match codec::read(sheet) {
        Ok(tree) => of_tree(&tree, textbook),
        Err(refusal) => Facts::refused(refusal),
    }
}

/// For a tree that the reader gave.
pub fn of_tree(sheet: &Sheet, textbook: bool) -> Facts {
    let flat = Flat::of(sheet);
    let count = sheet.rules.len();
    let nullable = flat.nullable();
    let [empty, empty_high] = row((0..count).filter(|rule| nullable[*rule]));
    let [fixed, fixed_high] = row((0..count).filter(|rule| cannot_be_inlined(&sheet.rules[*rule])));

    let fronts = flat.fronts(&nullable, textbook);
    let corners: Vec<Vec<usize>> = (0..count).map(|rule| flat.met(rule, &fronts)).collect();
    let parts = flat.parts();
    let ids: Vec<u32> = sheet.rules.iter().map(|rule| rule.id).collect();
    let cycles = cycles(&corners, &ids);

    Facts {
        numbers: [0, count as u32, cycles.len() as u32],
        marks: [empty, empty_high, fixed, fixed_high],
        calls: rows((0..count).map(|rule| flat.met(rule, &parts))),
        corners: rows(corners),
        cycles: rows(cycles),
    }
}

/// SPECIFICATION 7.5.
fn cannot_be_inlined(rule: &Rule) -> bool {
    rule.flags != 0
        || rule.alternatives.iter().any(|own| own.labelled)
        || walk::elements(rule)
            .iter()
            .any(|one| matches!(one.kind, Kind::Action(_) | Kind::Predicate(_)))
}

pub fn row(members: impl IntoIterator<Item = usize>) -> Row {
    let mut row = [0; 2];
    for rule in members {
        row[rule / 64] |= 1 << (rule % 64);
    }
    row
}

fn rows(sets: impl IntoIterator<Item = Vec<usize>>) -> Rows {
    let mut rows = [[0; 2]; RULES];
    for (place, set) in rows.iter_mut().zip(sets) {
        *place = row(set);
    }
    rows
}
