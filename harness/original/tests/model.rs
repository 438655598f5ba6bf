//! Sheets pass through the original's model unchanged, every word of them.

use std::collections::BTreeSet;

use sheets::blocks::ends_in_blocks;
use sheets::generate::{PROFILES, give_precedences};
use sheets::parse::sheet;
use sheets::rng::Rng;
use sheets::tree::{Counters, Kind, Sheet};
use sheets::walk::{self, Sort, without_precedences};

#[test]
fn a_sheet_comes_back_from_the_model() {
    for profile in &PROFILES {
        for seed in 0..100 {
            let made = ends_in_blocks(&profile.sheet(seed));
            assert_eq!(
                original::through_the_model(&made),
                made,
                "{} {seed}",
                profile.name
            );
        }
    }
}

fn with_precedences(sheet: &Sheet, seed: u64) -> Sheet {
    let mut made = sheet.clone();
    give_precedences(&mut made, &mut Rng::new(1, seed));
    made
}

/// Name, arguments and precedence of each call.
fn calls(sheet: &Sheet) -> BTreeSet<(u32, u32, u32)> {
    let elements = sheet.rules.iter().flat_map(walk::elements);
    let of = |kind: &Kind| match *kind {
        Kind::Call {
            name,
            arguments,
            precedence,
        } => Some((name, arguments, precedence)),
        _ => None,
    };
    elements.filter_map(|own| of(&own.kind)).collect()
}

#[test]
fn a_precedence_comes_back_from_the_model() {
    for profile in &PROFILES {
        for seed in 0..20 {
            let made = with_precedences(&ends_in_blocks(&profile.sheet(seed)), seed);
            assert_eq!(original::through_the_model(&made), made);
        }
    }
}

/// The original looks at no precedence, and makes none.
#[test]
fn precedences_are_copied_and_change_nothing_else() {
    let mut joined = 0;
    for profile in PROFILES.iter().filter(|own| !own.about_limits) {
        for seed in 0..100 {
            let plain = ends_in_blocks(&profile.sheet(seed));
            let made = with_precedences(&plain, seed);
            let (first, second) = (original::run(&plain), original::run(&made));
            assert_eq!(without_precedences(&second.result), first.result);
            assert_eq!(second.changed, first.changed);
            assert!(calls(&second.result).is_subset(&calls(&made)));
            joined += u64::from(second.changed);
        }
    }
    assert!(joined > 500, "{joined}");
}

#[test]
fn each_counter_is_set_and_read_apart() {
    let mut made = sheet("e: X;");
    made.counters = Counters {
        alternative: u32::MAX,
        element: 4_000_000_000,
        label: 3,
        action: 0,
        predicate: 17,
    };
    assert_eq!(original::through_the_model(&made).counters, made.counters);
}

#[test]
fn the_original_takes_ids_of_each_sort_from_its_counter() {
    let made =
        sheet("%counters 700 800 900 1000 1100; e: a x=INT {} &{} {} ( X | ) | INT; a: e PLUS;");
    let answer = original::run(&made);
    assert!(answer.changed);
    let of = |wanted: Sort| {
        let fresh = walk::ids(&answer.result).into_iter();
        let own = fresh.filter(|(sort, id)| *sort == wanted && *id >= 700);
        own.map(|(_, id)| id).collect::<Vec<_>>()
    };
    assert_eq!(of(Sort::Alternative), [700, 701, 702]);
    assert_eq!(of(Sort::Element), [800, 801, 802, 803, 804, 805, 806, 807]);
    assert_eq!(of(Sort::Label), [900]);
    assert_eq!(of(Sort::Action), [1000, 1001]);
    assert_eq!(of(Sort::Predicate), [1100]);
    let after = answer.result.counters;
    let after = [
        after.alternative,
        after.element,
        after.label,
        after.action,
        after.predicate,
    ];
    assert_eq!(after, [703, 808, 901, 1002, 1101]);
}
