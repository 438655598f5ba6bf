//! What is said of lent buffers and of numbers, with buffers of all sorts.

mod common;

use common::{bytes, stored};
use mutual_recursion::lent::{self, Facts};
use mutual_recursion::{
    Decision, RESULT_BYTES, RULES, Reading, TRAIL_BYTES, WORK_BYTES, cycles, join,
};

const JUNK: u8 = 0xa5;

/// Buffers longer than needed, each at an odd place, full of junk.
struct Dirty([Vec<u8>; 3]);

impl Dirty {
    const LEAST: [usize; 3] = [RESULT_BYTES, TRAIL_BYTES, WORK_BYTES];

    fn new() -> Dirty {
        Dirty(Dirty::LEAST.map(|least| vec![JUNK; least + 9]))
    }

    /// Without their first and last bytes, which nothing may touch.
    fn lend(&mut self) -> [&mut [u8]; 3] {
        self.0.each_mut().map(|own| {
            own.fill(JUNK);
            let end = own.len() - 1;
            &mut own[1..end]
        })
    }

    fn outside_is_untouched(&self) -> bool {
        self.0
            .iter()
            .all(|own| own[0] == JUNK && own[own.len() - 1] == JUNK)
    }
}

fn all(bytes: &[u8], byte: u8) -> bool {
    bytes.iter().all(|own| *own == byte)
}

#[test]
fn buffers_end_as_promised() {
    let mut dirty = Dirty::new();
    for record in stored() {
        for reading in [Reading::Original, Reading::Textbook] {
            let call = match reading {
                Reading::Original => lent::pass,
                Reading::Textbook => lent::pass_textbook,
            };
            let mut numbers = [99; 5];
            let [result, trail, work] = dirty.lend();
            call(&record.sheet, result, trail, work, &mut numbers);
            match join(&record.sheet, reading) {
                Ok(joined) => {
                    let (sheet, entries) = (joined.sheet.len(), joined.trail_bytes());
                    assert_eq!(
                        numbers,
                        [
                            0,
                            joined.plans,
                            joined.steps,
                            sheet as u32,
                            entries.len() as u32
                        ]
                    );
                    assert!(result[..sheet] == joined.sheet && all(&result[sheet..], 0));
                    assert!(trail[..entries.len()] == entries && all(&trail[entries.len()..], 0));
                    assert!(all(work, 0));
                }
                Err(refusal) => {
                    let left = if refusal.number() <= 2 { JUNK } else { 0 };
                    assert_eq!(numbers, [refusal.number(), 0, 0, 0, 0]);
                    assert!(
                        all(result, left) && all(trail, left) && all(work, left),
                        "{}",
                        record.name
                    );
                }
            }
            assert!(dirty.outside_is_untouched(), "{}", record.name);
        }
    }
}

#[test]
fn short_buffers_are_untouched() {
    let sheet = bytes(&[2, 0, 0, 0, 0, 0, 0, 0]);
    for short in 0..3 {
        for length in [0, Dirty::LEAST[short] - 1] {
            let mut dirty = Dirty::new();
            let mut numbers = [99; 5];
            let mut parts = dirty.lend();
            let whole = std::mem::take(&mut parts[short]);
            parts[short] = &mut whole[..length];
            let [result, trail, work] = parts;
            lent::pass(&sheet, result, trail, work, &mut numbers);
            assert_eq!(numbers, [2, 0, 0, 0, 0]);
            assert!(dirty.0.iter().all(|own| all(own, JUNK)));
        }
    }
}

fn row(members: &[u32], ids: &[u32; RULES]) -> [u64; 2] {
    members.iter().fold([0; 2], |mut row, id| {
        let at = ids.iter().position(|own| own == id).expect("a rule");
        row[at / 64] |= 1 << (at % 64);
        row
    })
}

fn is_cleared(work: &[u8]) -> bool {
    work.iter().all(|byte| *byte == 0)
}

/// The numbers of `plan_nth` and `first_plan`, and the rows, are those that `cycles` puts into types; without a plan the work area
/// is cleared.
#[test]
fn plans_and_cycles() {
    let mut work = vec![JUNK; WORK_BYTES];
    for record in stored() {
        let Ok(found) = cycles(&record.sheet, Reading::Textbook) else {
            continue;
        };
        let (mut ids, mut removable) = ([7; RULES], [7; 2]);
        lent::read_sheet(
            &record.sheet,
            &mut work,
            &mut [7; 12],
            &mut ids,
            &mut [7; RULES],
            &mut [7; RULES],
        );
        let count = found.len() as u32;
        let numbers_of = |decision: &Decision, second: u32| match decision {
            Decision::Planned(plan) => {
                let hub = ids.iter().position(|id| *id == plan.hub).expect("a rule") as u32;
                [0, second, 0, hub, 0, plan.steps, plan.alternatives, 0]
            }
            Decision::Declined(clause) => [0, second, 1, 0, clause.number(), 0, 0, 0],
            Decision::TooLarge => [0, second, 2, 0, 0, 0, 0, 0],
        };
        for (cycle, nth) in found.iter().zip(0..) {
            let mut numbers = [99; 8];
            lent::plan_nth(
                &record.sheet,
                &mut work,
                1,
                nth,
                &mut numbers,
                &mut removable,
            );
            assert_eq!(
                numbers,
                numbers_of(&cycle.decision, count),
                "{}",
                record.name
            );
            let gone = match &cycle.decision {
                Decision::Planned(plan) => &plan.removed[..],
                _ => &[],
            };
            assert_eq!(is_cleared(&work), numbers[2] != 0, "{}", record.name);
            assert_eq!(removable, row(gone, &ids), "{}", record.name);
        }
        let mut numbers = [99; 8];
        lent::plan_nth(
            &record.sheet,
            &mut work,
            1,
            count,
            &mut numbers,
            &mut removable,
        );
        assert_eq!(numbers, [0, count, 3, 0, 0, 0, 0, 0]);
        assert!(is_cleared(&work), "{}", record.name);

        let (mut numbers, mut cycle, mut clauses) = ([99; 8], [7; 2], [7; RULES]);
        lent::first_plan(
            &record.sheet,
            &mut work,
            1,
            &mut numbers,
            &mut cycle,
            &mut removable,
            &mut clauses,
        );
        let clause = |cycle: &mutual_recursion::CycleLeft| match cycle.decision {
            Decision::Declined(clause) => Some(clause.number()),
            _ => None,
        };
        let mut declined: Vec<u32> = found.iter().map_while(clause).collect();
        let front = declined.len();
        match found.get(front) {
            None => assert_eq!(numbers, [0, front as u32, 3, 0, 0, 0, 0, 0]),
            Some(first) => {
                assert_eq!(
                    numbers,
                    numbers_of(&first.decision, front as u32),
                    "{}",
                    record.name
                );
                let planned = matches!(first.decision, Decision::Planned(_));
                let members = if planned { &first.members[..] } else { &[] };
                assert_eq!(cycle, row(members, &ids), "{}", record.name);
            }
        }
        assert_eq!(is_cleared(&work), numbers[2] != 0, "{}", record.name);
        declined.resize(RULES, 0);
        assert_eq!(clauses[..], declined, "{}", record.name);
    }
}

#[test]
fn facts_and_parts() {
    let mut work = vec![JUNK; WORK_BYTES];
    let example = stored()
        .into_iter()
        .find(|record| record.name == "example 6")
        .expect("stored");
    // e: a | INT; a: e n; n: ;
    let (mut numbers, mut marks) = ([9; 3], [9; 4]);
    let [mut calls, mut corners, mut cycles] = [[[9; 2]; RULES]; 3];
    let facts = Facts {
        numbers: &mut numbers,
        marks: &mut marks,
        calls: &mut calls,
        corners: &mut corners,
        cycles: &mut cycles,
    };
    lent::find_facts(&example.sheet, &mut work, 0, facts);
    let rows = |front: &[u64]| {
        let mut all = [[0; 2]; RULES];
        front
            .iter()
            .zip(&mut all)
            .for_each(|(low, row)| row[0] = *low);
        all
    };
    assert_eq!((numbers, marks), ([0, 3, 1], [0b100, 0, 0, 0]));
    assert_eq!(calls, rows(&[0b010, 0b101]));
    assert_eq!(corners, rows(&[0b010, 0b001]));
    assert_eq!(cycles, rows(&[0b011]));

    let (mut numbers, mut ids, mut names, mut places) =
        ([9; 12], [9; RULES], [9; RULES], [9; RULES]);
    lent::read_sheet(
        &example.sheet,
        &mut work,
        &mut numbers,
        &mut ids,
        &mut names,
        &mut places,
    );
    assert_eq!(numbers, [0, 2, 66, 0, 14, 24, 0, 0, 0, 3, 4, 4]);
    assert_eq!(
        (ids[..4].to_vec(), names[..4].to_vec()),
        (vec![1, 2, 3, 0], vec![1, 2, 4, 0])
    );
    assert_eq!(places[..4], [0, 30, 57, 0]);
}

/// Stored sheets with some words changed: nothing panics, and what is refused is refused alike.
#[test]
fn damaged_sheets() {
    let mut seed = 1u64;
    let mut random = move |below: usize| {
        seed = seed
            .wrapping_mul(6364136223846793005)
            .wrapping_add(1442695040888963407);
        (seed >> 33) as usize % below
    };
    let (mut refused, mut fine) = (0, 0);
    for record in stored() {
        for _ in 0..10 {
            let mut sheet = record.sheet.clone();
            for _ in 0..1 + random(3) {
                if !sheet.is_empty() {
                    let at = random(sheet.len());
                    sheet[at] = random(8) as u8;
                }
            }
            for reading in [Reading::Original, Reading::Textbook] {
                match (join(&sheet, reading), cycles(&sheet, reading)) {
                    (Ok(_), Ok(_)) => fine += 1,
                    (Err(own), Err(other)) => {
                        refused += 1;
                        assert_eq!(own, other);
                    }
                    (Err(own), Ok(_)) => assert!(own.number() >= 7, "{own}"),
                    (Ok(_), Err(other)) => panic!("{other}"),
                }
            }
        }
    }
    assert!(refused > 1000 && fine > 1000, "{refused} {fine}");
}
