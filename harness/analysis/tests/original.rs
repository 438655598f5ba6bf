//! The second opinion is the original's own, on every stored sheet and on generated ones.

mod common;

use std::collections::BTreeSet;

use analysis::facts::{Facts, Row, facts, of_tree};
use analysis::run::sheet;
use analysis::stored::stored;
use common::members;
use sheets::blocks::{ends_in_blocks, has_end_of_input};
use sheets::codec::{self, bytes_of, encode};
use sheets::generate::PROFILES;
use sheets::tree::Sheet;
use traced::Limits;

fn ids(row: Row, sheet: &Sheet) -> BTreeSet<u32> {
    let members = members(row).into_iter();
    members.map(|rule| sheet.rules[rule].id).collect()
}

fn cycles(found: &Facts, sheet: &Sheet) -> Vec<Vec<u32>> {
    let rows = &found.cycles[..found.numbers[2] as usize];
    let cycle = |row: &Row| ids(*row, sheet).into_iter().collect();
    rows.iter().map(cycle).collect()
}

/// Compares where the sheet is not refused; the number of its cycles.
fn agree(bytes: &[u8], name: &str) -> Option<usize> {
    let tree = codec::read(bytes).ok()?;
    let ours = facts(bytes, false);
    let theirs = traced::facts(&ends_in_blocks(&tree));
    let ids = |row| ids(row, &tree);
    assert_eq!(ours.numbers[1] as usize, tree.rules.len(), "{name}");
    assert_eq!(ids(ours.nullable()), theirs.nullable, "{name}");
    for (at, rule) in tree.rules.iter().enumerate() {
        let sets = [ours.calls[at], ours.corners[at]].map(ids);
        assert_eq!(sets, theirs.calls_and_corners[&rule.id], "{name}");
        let fixed = ids(ours.fixed()).contains(&rule.id);
        assert_eq!(fixed, !theirs.inlinable.contains(&rule.id), "{name}");
    }
    assert_eq!(cycles(&ours, &tree), theirs.cycles, "{name}");
    Some(theirs.cycles.len())
}

/// The sheets of which the next tests say that they agree have the end of input too, in each profile that is named for it.
#[test]
fn the_end_of_input_is_among_them() {
    let stored = stored().expect("the stored answers").into_iter();
    let all = stored
        .map(|one| one.bytes)
        .chain((0..4_000).map(|index| sheet(9, index)));
    let trees = all.filter_map(|bytes| codec::read(&bytes).ok());
    let count = trees.filter(has_end_of_input).count();
    assert!(count > 1_000, "{count}");
}

#[test]
fn on_every_stored_sheet() {
    let stored = stored().expect("the stored answers");
    let compared = stored.iter().filter_map(|one| agree(&one.bytes, &one.name));
    let cyclic = compared.filter(|count| *count != 0).count();
    assert!(stored.len() >= 800, "{} sheets", stored.len());
    assert!(cyclic >= 500, "{cyclic} with cycles");
}

#[test]
fn on_sheets_of_every_profile() {
    let mut cyclic = 0;
    for profile in &PROFILES {
        for seed in 1_000..1_050 {
            let bytes = bytes_of(&encode(&profile.sheet(seed)));
            let name = format!("{} {seed}", profile.name);
            cyclic += usize::from(agree(&bytes, &name) > Some(0));
        }
    }
    assert!(cyclic > 1_000, "{cyclic} with cycles");
}

#[test]
fn on_the_sheets_of_a_run() {
    let compared = (0..4_000).filter_map(|index| agree(&sheet(9, index), &format!("{index}")));
    let counts: Vec<usize> = compared.collect();
    let cyclic = counts.iter().filter(|count| **count != 0).count();
    assert!(counts.len() > 2_500, "{} accepted", counts.len());
    assert!(cyclic > 1_000, "{cyclic} with cycles");
}

/// What a run of the pass says on its way: the cycle of each plan, and at its end the nullable rules
/// and the cycles that were declined.
#[test]
fn as_the_pass_itself_reports() {
    let (mut plans, mut declined) = (0, 0);
    for one in stored().expect("the stored answers") {
        let Ok(mut sheet) = codec::read(&one.bytes) else {
            continue;
        };
        if has_end_of_input(&sheet) {
            continue;
        }
        sheet.kind = 2;
        let Ok((_, trace)) = traced::run(&sheet, Limits::STANDARD) else {
            continue;
        };
        for stage in trace.stages {
            let before = cycles(&of_tree(&sheet, false), &sheet);
            assert!(before.contains(&stage.cycle), "{}", one.name);
            sheet = stage.after;
            plans += 1;
        }
        let last = of_tree(&sheet, false);
        assert_eq!(ids(last.nullable(), &sheet), trace.nullable, "{}", one.name);
        let left: Vec<_> = trace.declined.into_iter().map(|one| one.cycle).collect();
        assert_eq!(cycles(&last, &sheet), left, "{}", one.name);
        declined += left.len();
    }
    assert!(plans > 200 && declined > 200, "{plans} and {declined}");
}
