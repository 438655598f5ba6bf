//! The generator hits on purpose what its profiles name.

use std::collections::BTreeSet;

use oracle::{Answer, Done, ask_sheet};
use sheets::generate::{PROFILES, profile};
use sheets::tree::{Kind, Sheet};
use sheets::walk;

const SEEDS: u64 = 200;

fn answers(name: &str) -> Vec<(Sheet, Answer)> {
    let profile = profile(name).unwrap_or_else(|| panic!("no profile {name}"));
    let sheets = (0..SEEDS).map(|seed| profile.sheet(seed));
    sheets
        .map(|sheet| (sheet.clone(), ask_sheet(&sheet)))
        .collect()
}

fn how_many(name: &str, wanted: impl Fn(&Sheet, &Done) -> bool) -> usize {
    let all = answers(name);
    let met = all
        .iter()
        .filter(|(sheet, answer)| answer.as_ref().is_ok_and(|done| wanted(sheet, done)));
    met.count()
}

#[test]
fn each_clause_has_a_profile_that_meets_it_often() {
    let pairs = [
        ("no-base", 1, 100),
        ("hub-arguments", 2, 100),
        ("satellite-semantics", 3, 100),
        ("satellite-loop", 4, 100),
        ("dangling", 5, 100),
        ("optional-member", 6, 40),
        ("labels", 7, 30),
        ("captured", 8, 80),
        ("options", 9, 40),
        ("blocks", 10, 30),
        ("hollow", 11, 50),
    ];
    for (name, clause, least) in pairs {
        let met = |_: &Sheet, done: &Done| done.declined.iter().any(|one| one.clause == clause);
        let times = how_many(name, met);
        assert!(times >= least, "{name} meets clause {clause} {times} times");
    }
}

#[test]
fn each_twist_is_joined_too() {
    let names = [
        "plain",
        "several",
        "nullable-behind",
        "nullable-hub",
        "optional-member",
        "blocks",
        "labels",
        "references",
        "options",
        "preserved",
        "tail-satellite",
        "flags",
        "unknown",
        "optional-symbol",
        "arguments",
        "outside",
        "hollow",
        "long-chain",
    ];
    for name in names {
        let times = how_many(name, |_, done| done.plans() > 0);
        assert!(times >= 30, "{name} is joined {times} times");
    }
}

#[test]
fn cycles_of_two_to_six_rules_and_several_of_them_are_joined() {
    let mut lengths = BTreeSet::new();
    let mut plans = BTreeSet::new();
    for (_, answer) in answers("plain").into_iter().chain(answers("several")) {
        if let Ok(done) = answer {
            plans.insert(done.plans());
            lengths.extend(done.stages.iter().map(|stage| stage.cycle.len()));
        }
    }
    assert!(
        (2..=6).all(|length| lengths.contains(&length)),
        "{lengths:?}"
    );
    assert!((0..=3).all(|many| plans.contains(&many)), "{plans:?}");
}

#[test]
fn every_limit_is_met_from_both_sides() {
    let refused = |name: &str, number: u32| {
        let all = answers(name);
        let met = all
            .iter()
            .filter(|(_, answer)| answer.as_ref().err() == Some(&number))
            .count();
        (met, all.iter().filter(|(_, answer)| answer.is_ok()).count())
    };
    for (name, number) in [("near-7", 7), ("near-8", 8), ("just-9", 9)] {
        let (met, passed) = refused(name, number);
        assert!(
            met >= 20 && passed >= 10,
            "{name}: {met} refused, {passed} not"
        );
    }
}

#[test]
fn large_names_splices_and_lists_are_joined_and_declined() {
    for clause in [5, 7, 8, 9] {
        let met = |_: &Sheet, done: &Done| done.declined.iter().any(|one| one.clause == clause);
        assert!(how_many("far-names", met) >= 5, "clause {clause}");
    }
    let joined = |_: &Sheet, done: &Done| done.plans() > 0;
    assert!(how_many("far-names", joined) >= 30);
    for clause in [5, 7, 8, 9] {
        let met = |sheet: &Sheet, done: &Done| {
            walk::shares_a_remainder(sheet) && done.declined.iter().any(|one| one.clause == clause)
        };
        assert!(how_many("wide-names", met) >= 5, "clause {clause}");
    }
    let wide = |sheet: &Sheet, done: &Done| walk::shares_a_remainder(sheet) && done.plans() > 0;
    assert!(how_many("wide-names", wide) >= 30);
    let long = |sheet: &Sheet, done: &Done| {
        let mut alternatives = sheet.rules.iter().flat_map(|rule| &rule.alternatives);
        done.plans() > 0 && alternatives.any(|one| one.elements.len() >= 60)
    };
    assert!(how_many("long-splice", long) >= 30);
    let declined = |_: &Sheet, done: &Done| !done.declined.is_empty();
    assert!(how_many("long-splice", declined) >= 30);
    let lists = |sheet: &Sheet, done: &Done| {
        done.plans() > 0 && sheet.rules.iter().any(|rule| rule.alternatives.len() >= 62)
    };
    assert!(how_many("long-list", lists) >= 30);
}

/// Each way in which the end of input matters is met by the profile that is named for it, and joined where it can be.
#[test]
fn the_end_of_input_leads_to_what_its_profiles_name() {
    let joined = |_: &Sheet, done: &Done| done.plans() > 0;
    let least = [
        ("end-front", 5),
        ("end-alone", 100),
        ("end-tail", 120),
        ("end-block", 50),
        ("end-satellite", 100),
        ("end-anywhere", 3),
    ];
    for (name, least) in least {
        let times = how_many(name, joined);
        assert!(times >= least, "{name} is joined {times} times");
    }
    let clauses = [
        ("end-front", 10, 40),
        ("end-front", 11, 80),
        ("end-alone", 11, 15),
        ("end-tail", 11, 10),
        ("end-block", 10, 20),
        ("end-block", 11, 40),
        ("end-satellite", 11, 15),
        ("end-anywhere", 6, 5),
    ];
    for (name, clause, least) in clauses {
        let met = |_: &Sheet, done: &Done| done.declined.iter().any(|one| one.clause == clause);
        let times = how_many(name, met);
        assert!(times >= least, "{name} meets clause {clause} {times} times");
    }
}

/// Outermost and in blocks, with every quantifier, with labels, options and carried numbers.
#[test]
fn the_end_of_input_occurs_in_every_form() {
    let (mut forms, mut labels, mut options) = (BTreeSet::new(), 0, 0);
    for profile in PROFILES.iter().filter(|profile| profile.has_ends) {
        for seed in 0..SEEDS {
            for rule in &profile.sheet(seed).rules {
                walk::alternatives(&rule.alternatives, 0, &mut |node| {
                    if let walk::Node::Element(depth, own) = node
                        && own.is_end_of_input()
                    {
                        forms.insert((depth.min(1), own.quantifier, own.carried.min(2)));
                        labels += usize::from(own.label.is_some());
                        options += own.options.len();
                    }
                });
            }
        }
    }
    assert_eq!(forms.len(), 2 * 7 * 3, "{forms:?}");
    assert!(labels > 100 && options > 100, "{labels} and {options}");
}

#[test]
fn satellites_are_kept_and_removed_for_each_reason() {
    let kept = |sheet: &Sheet, done: &Done| {
        done.plans() > 0 && done.result.rules.len() == sheet.rules.len()
    };
    let removed = |sheet: &Sheet, done: &Done| done.result.rules.len() < sheet.rules.len();
    for name in ["preserved", "tail-satellite", "outside"] {
        assert!(how_many(name, kept) >= 10, "{name}");
        assert!(how_many(name, removed) >= 10, "{name}");
    }
}

#[test]
fn references_of_each_kind_and_blocks_of_each_depth_occur() {
    let mut kinds = BTreeSet::new();
    let mut depths = BTreeSet::new();
    for profile in PROFILES.iter().filter(|profile| !profile.about_limits) {
        for seed in 0..SEEDS {
            let sheet = profile.sheet(seed);
            for element in sheet.rules.iter().flat_map(walk::elements) {
                if let Kind::Action(body) | Kind::Predicate(body) = &element.kind {
                    kinds.extend(
                        body.references
                            .iter()
                            .map(|one| (element.kind.number(), one.kind)),
                    );
                }
            }
            depths.extend(sheet.rules.iter().map(|rule| depth(&rule.alternatives)));
        }
    }
    assert_eq!(
        kinds.len(),
        6,
        "actions and predicates, each kind: {kinds:?}"
    );
    assert_eq!(depths, (0..=8).collect());
}

fn depth(alternatives: &[sheets::tree::Alternative]) -> usize {
    let mut deepest = 0;
    walk::alternatives(alternatives, 0, &mut |node| {
        if let walk::Node::Alternative(depth, _) = node {
            deepest = deepest.max(depth);
        }
    });
    deepest
}
