//! Each sentence of demand 3 (SPECIFICATION 1.5 to 1.8) fails on an answer that was made to
//! break it.

use std::collections::BTreeSet;

use demand3::corners::Reading::{Original, Textbook};
use demand3::{Fault, faults};
use oracle::{Done, ask_sheet};
use sheets::parse::sheet;
use sheets::tree::{Alternative, Sheet};

fn after(grammar: &str, tamper: impl Fn(&Sheet, &mut Done)) -> BTreeSet<Fault> {
    let given = sheet(grammar);
    let mut done = ask_sheet(&given).expect("no refusal");
    assert_eq!(
        faults(&given, &done),
        Some(BTreeSet::new()),
        "{grammar} as it is"
    );
    tamper(&given, &mut done);
    faults(&given, &done).expect("three symbols")
}

/// Puts `changed` where the last plan's grammar and the result stand.
fn put(done: &mut Done, changed: Sheet) {
    done.stages.last_mut().expect("a plan").after = changed.clone();
    done.result = changed;
}

const JOINED: &str = "%preserve a; e: a | X; a: e Y;";

#[test]
fn a_string_more_is_seen() {
    let found = after(JOINED, |_, done| {
        let mut changed = done.result.clone();
        changed.rules[0].alternatives[0].elements.truncate(1);
        put(done, changed);
    });
    assert!(found.contains(&Fault::Strings), "{found:?}");
    let found = after(JOINED, |_, done| {
        let mut changed = done.result.clone();
        changed.rules[0].alternatives.pop();
        put(done, changed);
    });
    assert!(found.contains(&Fault::Strings) && found.contains(&Fault::BothSorts(Original)));
}

/// Of each sheet, what becomes of the alternatives of e, the same strings being left.
#[test]
fn a_tree_more_or_less_is_seen() {
    type Change = fn(&mut Vec<Alternative>);
    let changes: [(&str, Change); 4] = [
        ("e: a | X; a: e Y | e Y;", |all| drop(all.remove(1))),
        ("e: a? Z | X; a: e Y | ;", |all| drop(all.remove(2))),
        ("e: a? Z | X; a: e Y;", |all| all.insert(1, all[1].clone())),
        ("e: a | X | X; a: e Y;", |all| drop(all.pop())),
    ];
    for (grammar, change) in changes {
        let found = after(grammar, |_, done| {
            let mut changed = done.result.clone();
            change(&mut changed.rules[0].alternatives);
            put(done, changed);
        });
        assert!(found.contains(&Fault::Readings), "{grammar}: {found:?}");
        assert!(!found.contains(&Fault::Strings), "{grammar}: {found:?}");
    }
}

#[test]
fn a_call_of_a_removed_rule_is_seen() {
    let found = after("e: a a | X; a: e Y;", |_, done| {
        let mut changed = done.result.clone();
        changed.rules.pop();
        put(done, changed);
    });
    assert_eq!(found, BTreeSet::from([Fault::Closed]));
}

#[test]
fn a_hub_left_as_it_was_is_seen() {
    let found = after(JOINED, |given, done| put(done, given.clone()));
    for fault in [
        Fault::Shape(Textbook),
        Fault::Shape(Original),
        Fault::LaterCycle(Textbook),
        Fault::LaterCycle(Original),
        Fault::BothSorts(Textbook),
        Fault::Cycles,
        Fault::Again,
    ] {
        assert!(found.contains(&fault), "{fault:?} in {found:?}");
    }
    assert!(!found.contains(&Fault::Strings), "{found:?}");
}

#[test]
fn an_empty_tail_is_seen() {
    let found = after("e: a | X; a: e Y?; b: b;", |_, _| {});
    assert_eq!(found, BTreeSet::new(), "declined, and so nothing is joined");
    let found = after("e: a | X; a: e Y;", |_, done| {
        let mut changed = done.result.clone();
        changed.rules[0].alternatives[0].elements[1].quantifier = 1;
        put(done, changed);
    });
    assert!(found.contains(&Fault::Shape(Original)), "{found:?}");
}

#[test]
fn a_result_unlike_the_last_plan_is_seen() {
    let found = after(JOINED, |_, done| {
        done.result.rules[0].alternatives.swap(0, 1)
    });
    assert_eq!(found, BTreeSet::from([Fault::LeftAsPlanned]));
    let found = after(JOINED, |_, done| done.result.counters.element = 0);
    assert_eq!(found, BTreeSet::from([Fault::Valid]));
}

#[test]
fn a_hub_of_two_plans_is_seen() {
    let found = after(JOINED, |_, done| {
        let again = done.stages[0].clone();
        done.stages.push(again);
    });
    assert_eq!(found, BTreeSet::from([Fault::Plans]));
}

#[test]
fn a_new_left_corner_is_seen() {
    let found = after("e: a | X; a: e Y; c: X e;", |_, done| {
        let mut changed = done.result.clone();
        changed.rules[1].alternatives[0].elements.remove(0);
        put(done, changed);
    });
    assert!(found.contains(&Fault::ReachGrew(Original)), "{found:?}");
}

#[test]
fn a_wrong_entry_of_the_trail_is_seen() {
    let found = after(JOINED, |_, done| done.trail[0][3] += 1);
    assert_eq!(found, BTreeSet::from([Fault::Origins]));
    let found = after(JOINED, |_, done| done.trail[1][2] = 1);
    assert_eq!(found, BTreeSet::from([Fault::Origins]));
    let found = after(JOINED, |_, done| done.trail[1][1] += 900);
    assert_eq!(
        found,
        BTreeSet::from([Fault::Origins, Fault::TrailOfResult])
    );
}

#[test]
fn a_cycle_overlooked_is_seen() {
    let found = after("e: a X; a: e Y;", |_, done| done.declined.clear());
    assert_eq!(found, BTreeSet::from([Fault::Cycles]));
}
