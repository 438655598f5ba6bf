//! The comparison passes a finder that answers alike, and stops at each kind of wrong one.

use analysis::compare::{Call, Lent, Outputs, WORK};
use analysis::facts::{Facts, facts, of_tree};
use analysis::run::{Difference, Run, Tally};
use sheets::codec;
use sheets::tree::{Kind, Sheet};
use sheets::walk::edit;

fn put(out: Outputs, found: &Facts) {
    *out.numbers = found.numbers;
    *out.marks = found.marks;
    *out.calls = found.calls;
    *out.corners = found.corners;
    *out.cycles = found.cycles;
}

/// Answers as the proved finder does, with the facts that `find` gives.
fn answer(
    (sheet, work, reading): (&[u8], &mut [u8], u32),
    out: Outputs,
    find: impl Fn(&[u8], bool) -> Facts,
) {
    let mut found = find(sheet, reading != 0);
    if found.numbers[0] != 1 && work.len() < WORK {
        found = Facts::refused(2);
    }
    if !matches!(found.numbers[0], 1 | 2) {
        work.fill(0);
    }
    put(out, &found);
}

fn compared(find: impl Fn(&[u8], bool) -> Facts) -> Result<Tally, Difference> {
    let finder = |s: &[u8], w: &mut [u8], r: u32, out: Outputs| answer((s, w, r), out, &find);
    let mut run = Run::new(&finder);
    run.seeds(4, 2_000).map(|()| run.tally)
}

fn caught(what: &str, find: impl Fn(&[u8], bool) -> Facts) {
    let differs = compared(find).expect_err("a wrong finder");
    assert!(differs.what.starts_with(what), "{what}: {}", differs.what);
}

/// The facts of the sheet that `change` makes of the one handed in.
fn changed(change: impl Fn(&mut Sheet)) -> impl Fn(&[u8], bool) -> Facts {
    move |sheet, textbook| match codec::read(sheet) {
        Err(refusal) => Facts::refused(refusal),
        Ok(mut tree) => {
            change(&mut tree);
            of_tree(&tree, textbook)
        }
    }
}

fn spoiled(spoil: impl Fn(&mut Facts)) -> impl Fn(&[u8], bool) -> Facts {
    move |sheet, textbook| {
        let mut found = facts(sheet, textbook);
        spoil(&mut found);
        found
    }
}

#[test]
fn the_same_finder_agrees() {
    let tally = compared(facts).expect("agreement");
    assert_eq!(tally.sheets(), 2_000);
}

#[test]
fn one_reading_for_both_is_caught() {
    caught("corners", |sheet, _| facts(sheet, false));
    caught("corners", |sheet, _| facts(sheet, true));
    caught("corners", |sheet, textbook| facts(sheet, !textbook));
}

#[test]
fn unknown_calls_taken_for_empty_are_caught() {
    let wrong = changed(|sheet| {
        let names: Vec<u32> = sheet.rules.iter().map(|rule| rule.name).collect();
        for rule in &mut sheet.rules {
            edit(&mut rule.alternatives, &mut |element| match element.kind {
                Kind::Call { name, .. } if !names.contains(&name) => element.kind = Kind::Epsilon,
                _ => {}
            });
        }
    });
    caught("", wrong);
}

#[test]
fn the_first_alternative_of_a_block_alone_is_caught() {
    let wrong = changed(|sheet| {
        for rule in &mut sheet.rules {
            edit(&mut rule.alternatives, &mut |element| {
                if let Kind::Block(inner) = &mut element.kind {
                    inner.truncate(1);
                }
            });
        }
    });
    caught("", wrong);
}

#[test]
fn a_quantifier_of_calls_left_out_is_caught() {
    let wrong = changed(|sheet| {
        for rule in &mut sheet.rules {
            edit(&mut rule.alternatives, &mut |element| {
                if matches!(element.kind, Kind::Call { .. }) {
                    element.quantifier = 0;
                }
            });
        }
    });
    caught("", wrong);
}

#[test]
fn words_in_the_wrong_order_are_caught() {
    caught("marks", spoiled(|found| found.marks.swap(0, 1)));
    caught("marks", spoiled(|found| found.marks.swap(2, 3)));
    caught("calls", spoiled(|found| found.calls[70].swap(0, 1)));
    caught("corners", spoiled(|found| found.corners[127].swap(0, 1)));
    caught("cycles", spoiled(|found| found.cycles[1].swap(0, 1)));
    caught("cycles", spoiled(|found| found.cycles.swap(2, 3)));
}

#[test]
fn numbers_and_self_edges_are_caught() {
    caught("numbers[0]", spoiled(|found| found.numbers[0] ^= 1));
    caught("numbers[1]", spoiled(|found| found.numbers[1] += 1));
    caught("numbers[2]", spoiled(|found| found.numbers[2] += 1));
    let looped = |found: &mut Facts| {
        let [_, rules, cycles] = found.numbers.map(|number| number as usize);
        let own = |rule: &usize| found.corners[*rule][rule / 64] >> (rule % 64) & 1 == 1;
        if cycles == 0 && (0..rules).any(|rule| own(&rule)) {
            found.numbers[2] = 1;
        }
    };
    caught("numbers[2]", spoiled(looped));
}

const SHEET: [u8; 31] = [0; 31];

fn called(call: Call, sheet: &[u8], finder: impl Fn(&mut [u8], Outputs)) -> Result<Facts, String> {
    let finder = |_: &[u8], work: &mut [u8], _: u32, out: Outputs| finder(work, out);
    Lent::new().one(&finder, sheet, call)
}

#[test]
fn the_work_area_is_looked_at_from_end_to_end() {
    let empty: Vec<u8> = [2u8, 0, 0, 0].into_iter().chain([0; 28]).collect();
    for work in [WORK, WORK + 1, 2 * WORK] {
        let call = Call {
            textbook: 0,
            work,
            start: 3,
        };
        let accepted = |wrong: fn(&mut [u8])| {
            called(call, &empty, |work, out| {
                work.fill(0);
                wrong(work);
                put(out, &Facts::NONE);
            })
        };
        assert!(accepted(|_| ()).is_ok());
        assert!(accepted(|work| work[work.len() - 1] = 1).is_err());
        assert!(accepted(|work| work[0] = 1).is_err());
        let cleared = called(call, &SHEET, |work, out| {
            work.fill(0);
            put(out, &Facts::refused(1));
        });
        assert!(cleared.is_err());
    }
}

#[test]
fn a_short_work_area_is_refused_by_2_after_1_and_left_alone() {
    let short = Call {
        textbook: 1,
        work: WORK - 1,
        start: 0,
    };
    let refused = |number| move |_: &mut [u8], out: Outputs| put(out, &Facts::refused(number));
    assert!(called(short, &SHEET, refused(1)).is_ok());
    assert!(called(short, &SHEET, refused(2)).is_err());
    assert!(called(short, &[0; 32], refused(2)).is_ok());
    assert!(called(short, &[0; 32], refused(3)).is_err());
    let cleared = called(short, &[0; 32], |work, out| {
        work.fill(0);
        put(out, &Facts::refused(2));
    });
    assert!(cleared.is_err());
}
