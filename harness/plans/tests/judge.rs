//! The judge: that the sheet with folded symbols is the textbook's reading, and that the planner alone decides as in a run.

use analysis::facts::{RULES, Row, facts};
use analysis::stored::stored;
use plans::judge::{Judged, folded, judged};
use plans::places::Places;
use plans::run::sheet;
use sheets::blocks::ends_in_blocks;
use sheets::codec;
use traced::{Decision, Limits};

fn stored_and_generated(count: u64) -> impl Iterator<Item = Vec<u8>> {
    let stored = stored().expect("the stored answers").into_iter();
    stored
        .map(|one| one.bytes)
        .chain((0..count).map(|index| sheet(8, index)))
}

/// In both readings, by the second opinion.
#[test]
fn the_cycles_are_those_of_each_reading() {
    let (mut cycles, mut parted) = (0, 0);
    for bytes in stored_and_generated(3_000) {
        let Ok(readings) = judged(&bytes) else {
            continue;
        };
        for (textbook, reading) in [false, true].into_iter().zip(&readings) {
            let found = facts(&bytes, textbook);
            let rows: Vec<Row> = reading.cycles.iter().map(|(row, _)| *row).collect();
            assert_eq!(rows, found.cycles[..found.numbers[2] as usize]);
            assert!(rows.len() <= RULES);
            cycles += rows.len();
        }
        parted += usize::from(readings[0].cycles != readings[1].cycles);
    }
    assert!(cycles > 4_000 && parted > 100, "{cycles} and {parted}");
}

/// All that the planner asks of rules is the textbook's of the sheet, and the original's of the folded one.
#[test]
fn a_folded_sheet_has_the_facts_of_the_textbook() {
    let mut count = 0;
    for bytes in stored_and_generated(3_000) {
        let Ok(tree) = codec::read(&bytes) else {
            continue;
        };
        let Some(folded) = folded(&tree) else {
            assert_eq!(facts(&bytes, false), facts(&bytes, true));
            continue;
        };
        let ids = |row: Row| {
            let rules = tree.rules.iter().enumerate();
            let own = rules.filter(move |(at, _)| row[at / 64] >> (at % 64) & 1 == 1);
            own.map(|(_, rule)| rule.id).collect()
        };
        let (ours, theirs) = (facts(&bytes, true), traced::facts(&ends_in_blocks(&folded)));
        assert_eq!(theirs.nullable, ids(ours.nullable()));
        for (at, rule) in tree.rules.iter().enumerate() {
            let sets = [ours.calls[at], ours.corners[at]].map(ids);
            assert_eq!(theirs.calls_and_corners[&rule.id], sets);
            assert!(
                theirs.inlinable.contains(&rule.id)
                    != (ours.fixed()[at / 64] >> (at % 64) & 1 == 1)
            );
        }
        count += 1;
    }
    assert!(count > 600, "{count}");
}

#[test]
fn places_are_those_of_the_words() {
    for bytes in stored_and_generated(1_000) {
        let Ok(tree) = codec::read(&bytes) else {
            continue;
        };
        let (words, places) = (codec::words_of(&bytes), Places::of(&tree));
        assert!(places.alternatives.iter().all(|(id, at)| words[*at] == *id));
        for (id, (at, quantifier)) in &places.elements {
            assert_eq!((words[*at], words[at + 2] / 256), (*id, *quantifier));
        }
        let outermost = tree.rules.iter().flat_map(|rule| &rule.alternatives);
        let options = outermost.flat_map(|own| &own.options);
        let mut written: Vec<(u32, u32)> = options.map(|own| (own.name, own.value)).collect();
        let found = places.options.iter().map(|at| (words[*at], words[at + 1]));
        let mut found: Vec<(u32, u32)> = found.collect();
        written.sort_unstable();
        found.sort_unstable();
        assert_eq!(written, found);
    }
}

/// A run of the whole pass plans the first cycle that has a plan, or is refused by 7 at it.
#[test]
fn a_run_begins_with_the_first_plan() {
    let (mut plans, mut refused, mut none) = (0, 0, 0);
    for bytes in stored_and_generated(3_000) {
        let Ok(mut tree) = codec::read(&bytes) else {
            continue;
        };
        tree.kind = 2;
        let tree = ends_in_blocks(&tree);
        let Ok([Judged { cycles, .. }, _]) = judged(&bytes) else {
            continue;
        };
        let decided = cycles.iter().map(|(_, decision)| decision);
        let mut left = decided.skip_while(|decision| matches!(decision, Decision::Declined(_)));
        let first = left.next();
        let run = traced::run(&tree, Limits::STANDARD);
        match (first, &run) {
            (None, Ok((_, trace))) => {
                let clauses = trace
                    .declined
                    .iter()
                    .map(|one| Decision::Declined(one.clause));
                assert!(clauses.eq(cycles.iter().map(|(_, decision)| decision.clone())));
                none += 1;
            }
            (Some(Decision::Planned(plan)), Ok((_, trace))) => {
                let stage = &trace.stages[0];
                assert_eq!((stage.hub, stage.steps), (plan.hub, plan.steps));
                let before = tree.rules.iter().map(|rule| rule.id);
                let stays = before.filter(|id| !plan.removable.contains(id));
                assert!(stays.eq(stage.after.rules.iter().map(|rule| rule.id)));
                plans += 1;
            }
            (Some(Decision::Planned(_)), Err(number)) => assert!((7..=9).contains(number)),
            (Some(Decision::Overfull(_)), Err(7)) => refused += 1,
            _ => panic!("{first:?}"),
        }
    }
    let counts = [plans, refused, none];
    assert!(counts.iter().all(|count| *count > 60), "{counts:?}");
}
