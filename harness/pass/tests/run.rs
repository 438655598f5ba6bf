//! What a run is made of.

use pass::grow;
use pass::outcome::{Judged, judged};
use pass::run::sheet;
use pass::tally::Tally;
use reader::random::Random;
use reader::read::read;
use reader::tree::Sheet;
use sheets::codec::words_of;

#[test]
fn what_is_grown_is_accepted() {
    for index in 0..600 {
        let grown = grow::unit(&mut Random::of(5, index));
        let parts = read(&Sheet::of(&grown).bytes()).expect("a good sheet");
        let named = grown.rules.iter().map(|rule| (rule.id, rule.name));
        assert!(named.eq(parts.rules.iter().map(|rule| (rule.id, rule.name))));
    }
}

#[test]
fn a_run_has_enough_of_each_sort() {
    let mut tally = Tally::default();
    (0..2_400).for_each(|index| tally.add(&judged(&sheet(1, index))));
    for answers in tally.answers {
        for refusal in [1, 3, 4, 5, 6, 7, 8, 9] {
            assert!(answers.numbers[refusal] > 20, "{answers}");
        }
        assert!(answers.numbers[0] > 1_500, "{answers}");
        assert!(answers.joined > 400 && answers.again > 100, "{answers:?}");
    }
    assert!(tally.folded > 600 && tally.parted > 8, "{tally:?}");
    assert!(
        tally.ends.numbers[0] > 400 && tally.ends.joined > 100,
        "{tally:?}"
    );
    assert!(tally.alike > 600 && tally.alike_joined > 150, "{tally:?}");
    assert_eq!(tally.result, 32_768);
}

#[test]
fn far_numbers_have_small_sheets_and_some_of_each_sort() {
    let mut tally = Tally::default();
    let far = 5_000_000..5_000_768;
    let small = far.clone().filter(|index| sheet(1, *index).len() < 2_048);
    assert!(small.count() > 600);
    far.for_each(|index| tally.add(&judged(&sheet(1, index))));
    for answers in tally.answers {
        assert!(answers.joined > 8 && answers.numbers[1] > 20, "{answers:?}");
    }
}

/// Results of 32,768 bytes and just under, 9 for a word more; counters at their end, and 8 for an id more.
#[test]
fn sheets_are_grown_to_the_very_end() {
    let [mut full, mut nearly, mut too_long, mut ended, mut past] = [0; 5];
    for index in 0..600 {
        let bytes = grow::sheet(&mut Random::of(2, index));
        let Judged { readings, .. } = judged(&bytes);
        let outcome = &readings[0];
        full += usize::from(outcome.result.len() == 32_768);
        nearly += usize::from(outcome.result.len() == 32_764);
        too_long += usize::from(outcome.number() == 9);
        past += usize::from(outcome.number() == 8);
        let words = words_of(&outcome.result);
        let counters = &words[words.len().saturating_sub(5)..];
        ended += usize::from(outcome.plans() != 0 && counters.contains(&u32::MAX));
    }
    let counts = [full, nearly, too_long, ended, past];
    assert!(counts.iter().all(|count| *count > 4), "{counts:?}");
}

#[test]
fn a_seed_gives_the_same_sheets_again() {
    assert!((0..200).all(|index| sheet(5, index) == sheet(5, index)));
    assert!((0..200).any(|index| sheet(5, index) != sheet(6, index)));
}
