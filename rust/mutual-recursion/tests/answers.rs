//! Every stored answer of the original, by way of this crate.

mod common;

use common::{Answer, kind, stored};
use mutual_recursion::{
    Buffers, Clause, CycleLeft, Decision, Joined, Kind, Reading, Reason, Refusal, cycles, join,
    join_in,
};

fn words(joined: &Joined) -> Vec<Vec<u32>> {
    let entry = |own: &mutual_recursion::Entry| {
        vec![own.kind.number(), own.id, own.reason.number(), own.owner]
    };
    joined.trail.iter().map(entry).collect()
}

#[test]
fn owned() {
    let mut joined_some = 0;
    for record in stored() {
        let name = &record.name;
        match (join(&record.sheet, Reading::Original), &record.answer) {
            (Ok(joined), Ok(answer)) => {
                joined_some += u32::from(joined.plans > 0);
                assert_eq!(
                    (joined.plans, joined.steps),
                    (answer.plans, answer.steps),
                    "{name}"
                );
                assert_eq!(joined.sheet, answer.result, "{name}");
                assert_eq!(words(&joined), answer.trail, "{name}");
            }
            (Err(refusal), Err(number)) => assert_eq!(refusal.number(), *number, "{name}"),
            (got, _) => panic!("{name}: {got:?}"),
        }
    }
    assert!(joined_some > 150);
}

#[test]
fn borrowed_in_the_same_buffers() {
    let mut buffers = Buffers::default();
    for record in stored() {
        for reading in [Reading::Original, Reading::Textbook] {
            let owned = join(&record.sheet, reading);
            let view = join_in(&mut buffers, &record.sheet, reading);
            if let (Ok(owned), Ok(view)) = (&owned, &view) {
                assert_eq!(view.trail.bytes(), owned.trail_bytes());
                assert_eq!(view.trail.len(), owned.trail.len());
                assert_eq!(view.trail.iter().len(), owned.trail.len());
                assert_eq!(view.trail.is_empty(), owned.trail.is_empty());
                assert!(view.trail.into_iter().eq(owned.trail.iter().copied()));
            }
            assert_eq!(view.map(|view| view.to_joined()), owned, "{}", record.name);
        }
    }
}

fn of_line(line: &[u32]) -> CycleLeft {
    let clause = Clause::of_number(line[0]).expect("a clause");
    CycleLeft {
        members: line[1..].to_vec(),
        decision: Decision::Declined(clause),
    }
}

#[test]
fn cycles_left() {
    let mut met = [0; 12];
    for record in stored() {
        let Ok(Answer {
            result,
            cycles: lines,
            ..
        }) = &record.answer
        else {
            continue;
        };
        if kind(result) != 2 {
            continue;
        }
        let expected: Vec<CycleLeft> = lines.iter().map(|line| of_line(line)).collect();
        assert_eq!(
            cycles(result, Reading::Original),
            Ok(expected),
            "{}",
            record.name
        );
        lines.iter().for_each(|line| met[line[0] as usize] += 1);
    }
    assert!(met[1..].iter().all(|count| *count > 0), "{met:?}");
}

#[test]
fn every_cycle_left_is_declined() {
    for record in stored() {
        for reading in [Reading::Original, Reading::Textbook] {
            let Ok(joined) = join(&record.sheet, reading) else {
                continue;
            };
            if kind(&joined.sheet) != 2 {
                assert_eq!(
                    (joined.plans, &joined.sheet),
                    (0, &record.sheet),
                    "{}",
                    record.name
                );
                continue;
            }
            for cycle in cycles(&joined.sheet, reading).expect("a sheet") {
                assert!(
                    matches!(cycle.decision, Decision::Declined(_)),
                    "{}: {cycle:?}",
                    record.name
                );
            }
        }
    }
}

/// The first cycle that is not declined is the one that the pass works on first.
#[test]
fn the_first_plan_is_made() {
    let mut made = 0;
    for record in stored() {
        let Ok(found) = cycles(&record.sheet, Reading::Original) else {
            continue;
        };
        if kind(&record.sheet) != 2 {
            continue;
        }
        let joined = join(&record.sheet, Reading::Original);
        let first = found
            .iter()
            .find(|cycle| !matches!(cycle.decision, Decision::Declined(_)));
        match first.map(|cycle| &cycle.decision) {
            None => assert_eq!(joined.unwrap().plans, 0, "{}", record.name),
            Some(Decision::TooLarge) => {
                assert_eq!(joined, Err(Refusal::PlanTooLarge), "{}", record.name)
            }
            Some(Decision::Planned(plan)) => {
                let Ok(joined) = joined else { continue };
                made += 1;
                assert!(plan.steps <= joined.steps, "{}", record.name);
                let hub = joined.trail.iter().find(|entry| entry.kind == Kind::Rule);
                assert_eq!(hub.map(|entry| entry.id), Some(plan.hub), "{}", record.name);
                assert!(!plan.removed.contains(&plan.hub), "{}", record.name);
            }
            Some(Decision::Declined(_)) => unreachable!("passed over"),
        }
    }
    assert!(made > 150, "{made}");
}

/// What is said of reasons: new alternatives and joined rules have the first, copies the second.
#[test]
fn reasons() {
    for record in stored() {
        let Ok(joined) = join(&record.sheet, Reading::Original) else {
            continue;
        };
        let hubs = joined.trail.iter().filter(|entry| entry.kind == Kind::Rule);
        assert_eq!(hubs.clone().count(), joined.plans as usize);
        assert!(
            hubs.clone()
                .all(|hub| hub.reason == Reason::RuleBoundary && hub.owner == hub.id)
        );
        let first = |entry: &&mutual_recursion::Entry| entry.reason == Reason::RuleBoundary;
        let sorts = [Kind::Rule, Kind::Alternative];
        assert!(
            joined
                .trail
                .iter()
                .filter(first)
                .all(|entry| sorts.contains(&entry.kind))
        );
    }
}
