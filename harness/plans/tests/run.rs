//! What a run is made of.

use plans::grow::unit;
use plans::judge::judged;
use plans::run::sheet;
use plans::tally::Tally;
use reader::random::Random;
use reader::read::read;
use reader::tree::Sheet;

#[test]
fn what_is_grown_is_accepted() {
    for index in 0..2_000 {
        let grown = unit(&mut Random::of(5, index));
        let parts = read(&Sheet::of(&grown).bytes()).expect("a good sheet");
        let named = grown.rules.iter().map(|rule| (rule.id, rule.name));
        assert!(named.eq(parts.rules.iter().map(|rule| (rule.id, rule.name))));
    }
}

#[test]
fn a_run_has_enough_of_each_sort() {
    let mut tally = Tally::default();
    (0..4_000).for_each(|index| tally.add(&judged(&sheet(1, index))));
    for refusal in [1, 3, 4, 5, 6] {
        assert!(tally.answers[refusal] > 15, "{tally:?}");
    }
    for outcomes in tally.outcomes {
        assert!(outcomes.planned > 1_000, "{outcomes}");
        let rare = [outcomes.alternatives, outcomes.elements, outcomes.options];
        assert!(rare.iter().all(|count| *count > 10), "{rare:?}");
        assert!(
            outcomes.declined[1..].iter().all(|count| *count > 40),
            "{outcomes}"
        );
    }
    let sorts = tally.sorts;
    let common = [sorts.split, sorts.options, sorts.other_hub, sorts.kept];
    assert!(common.iter().all(|count| *count > 100), "{sorts:?}");
    assert!(sorts.long > 40 && sorts.full > 4, "{sorts:?}");
    let sheets = [tally.parted, tally.preserved, tally.nested];
    assert!(sheets.iter().all(|count| *count > 60), "{sheets:?}");
}

#[test]
fn a_seed_gives_the_same_sheets_again() {
    assert!((0..200).all(|index| sheet(5, index) == sheet(5, index)));
    assert!((0..200).any(|index| sheet(5, index) != sheet(6, index)));
}
