//! Demand 3 (SPECIFICATION 1.5 to 1.8) and numbers of trees on the original's answers:
//! finding 1 of docs/DIFFERENCES.md, and no other on the grammars that are run here.

use std::collections::BTreeSet;

use demand3::corners::Reading::Textbook;
use demand3::grammars::{ALL, from_seed, from_seed_with_ends, numbered, numbered_with_ends};
use demand3::readings::Census;
use demand3::{Fault, checked, faults, has_optional_symbol};
use oracle::ask_sheet;
use sheets::codec::encode;
use sheets::parse::{parse, sheet};
use sheets::print::{Style, print};
use sheets::tree::Sheet;

fn found(grammar: &str) -> BTreeSet<Fault> {
    let given = sheet(grammar);
    let done = ask_sheet(&given).expect("no refusal");
    faults(&given, &done).expect("three symbols")
}

fn joined(grammar: &str) -> String {
    let (given, names) = parse(grammar).expect("the notation");
    let done = ask_sheet(&given).expect("no refusal");
    print(&done.result, &names, Style::Plain)
        .replace('\n', " ")
        .trim_end()
        .to_owned()
}

#[test]
fn optional_symbols_in_front_of_a_member_part_demands_2_and_3() {
    let grammar = "e: a | X; a: e Y | Z? e Y;";
    assert_eq!(joined(grammar), "e: e Y | Z? e Y | X;");
    assert_eq!(found(grammar), BTreeSet::from([Fault::Shape(Textbook)]));
    let smallest = "e: a; a: e . | .? e;";
    assert_eq!(encode(&sheet(smallest)).len() * 4, 280);
    assert_eq!(joined(smallest), "e: a; a: a . | .? e;");
    assert!(found(smallest).contains(&Fault::Shape(Textbook)));
    let by_splice = "e: a e Y | Z; a: e Y | X?;";
    assert_eq!(joined(by_splice), "e: e Y e Y | X? e Y | Z;");
    assert_eq!(found(by_splice), BTreeSet::from([Fault::Shape(Textbook)]));
}

#[test]
fn a_later_cycle_can_hold_the_hub_by_textbook_corners() {
    let grammar = "e: X? a | b | X; a: e Y; b: e Z;";
    assert_eq!(joined(grammar), "e: X? a | e Z | X; a: e Y;");
    assert_eq!(
        found(grammar),
        BTreeSet::from([Fault::LaterCycle(Textbook)])
    );
    let smallest = "e: a . | .? a; a: e;";
    assert_eq!(encode(&sheet(smallest)).len() * 4, 280);
    assert_eq!(joined(smallest), "e: e . | .? a; a: e;");
    assert!(found(smallest).contains(&Fault::LaterCycle(Textbook)));
}

#[test]
fn all_alternatives_can_be_of_one_sort_by_textbook_corners() {
    let smallest = "e: a . | .? e; a: e;";
    assert_eq!(encode(&sheet(smallest)).len() * 4, 280);
    assert_eq!(joined(smallest), "e: e . | .? e;");
    assert!(found(smallest).contains(&Fault::BothSorts(Textbook)));
}

/// Checks a grammar, and gives what was counted where it was joined.
fn holds(given: &Sheet, what: &str) -> Option<Census> {
    let done = ask_sheet(given).ok()?;
    let found = checked(given, &done)?;
    for fault in found.faults {
        assert!(
            fault.is_by_textbook_corners() && has_optional_symbol(given),
            "{what}: {fault:?}"
        );
    }
    (done.plans() > 0).then_some(found.trees)
}

/// How many were joined, and the numbers of trees of all.
fn summed(joined: impl Iterator<Item = Census>) -> (usize, Census) {
    joined.fold((0, Census::default()), |(count, mut sum), one| {
        sum.add(one);
        (count + 1, sum)
    })
}

#[test]
fn no_other_fault_in_grammars_from_seeds() {
    let joined = (0..9_000).filter_map(|seed| holds(&from_seed(seed)?, &format!("seed {seed}")));
    let (count, trees) = summed(joined);
    assert!(count > 2_000);
    assert!(trees.one > 10_000 && trees.several > 1_500 && trees.without_end > 10);
}

#[test]
fn no_other_fault_in_every_997th_enumerated_grammar() {
    let joined = (0..ALL)
        .step_by(997)
        .filter_map(|number| holds(&numbered(number), &format!("number {number}")));
    let (count, trees) = summed(joined);
    assert!(count > 10);
    assert!(trees.several > 100 && trees.without_end > 50);
}

/// With the end of input no other fault either, and none of its own: no reading ends at it.
#[test]
fn no_other_fault_with_the_end_of_input() {
    let from_seeds = (0..4_000).filter_map(|seed| {
        let given = from_seed_with_ends(seed)?;
        holds(&given, &format!("seed {seed} with ends"))
    });
    let (count, trees) = summed(from_seeds);
    assert!(count > 1_000, "{count}");
    assert!(trees.one > 3_000 && trees.several > 800 && trees.without_end > 100);
    let enumerated = (0..ALL).step_by(997).filter_map(|number| {
        let given = numbered_with_ends(number)?;
        assert!(!has_optional_symbol(&given));
        holds(&given, &format!("number {number} with ends"))
    });
    let (count, trees) = summed(enumerated);
    assert!(count > 5, "{count}");
    assert!(trees.several > 50, "{}", trees.several);
}

/// What would be joined if it were kind 5 has another shape than demand 3 asks for, and is left.
#[test]
fn the_end_of_input_parts_no_demands() {
    for grammar in [
        "e: a; a: e . | EOF e;",
        "e: a | X; a: e EOF+;",
        "e: EOF a | X; a: e Y;",
    ] {
        assert_eq!(joined(grammar), grammar);
        assert_eq!(found(grammar), BTreeSet::new());
    }
    for grammar in ["e: a | EOF; a: e Y;", "e: a | X; a: e Y EOF+;"] {
        assert_ne!(joined(grammar), grammar);
        assert_eq!(found(grammar), BTreeSet::new());
    }
}
