//! What the generator makes: sheets that must be taken, and enough of each refusal.

use reader::grow::{Limits, each_id, unit};
use reader::numbers::numbers;
use reader::random::Random;
use reader::read::read;
use reader::sheets::sheet;
use reader::tree::Sheet;

#[test]
fn good_sheets_are_read_as_they_were_grown() {
    for index in 0..3_000 {
        let mut random = Random::of(11, index);
        let mut grown = unit(&mut random, Limits::FORMAT);
        let parts = read(&Sheet::of(&grown).bytes()).expect("a good sheet");
        let mut counts = [0; 5];
        each_id(&mut grown, &mut |sort, _| counts[sort] += 1);
        assert_eq!([parts.alternatives, parts.elements], [counts[0], counts[1]]);
        assert_eq!(parts.preserved as usize, grown.preserved.len());
        assert_eq!(parts.counters, grown.counters);
        let named = grown.rules.iter().map(|r| (r.id, r.name));
        assert!(named.eq(parts.rules.iter().map(|r| (r.id, r.name))));
    }
}

#[test]
fn good_sheets_reach_the_limits() {
    let mut rules = 0;
    let mut length = 0;
    for index in 0..3_000 {
        let grown = unit(&mut Random::of(11, index), Limits::FORMAT);
        rules = rules.max(grown.rules.len());
        length = length.max(Sheet::of(&grown).bytes().len());
    }
    assert_eq!((rules, length), (128, 32_768));
}

#[test]
fn each_answer_is_met_often() {
    let mut met = [0; 7];
    for index in 0..10_000 {
        met[numbers(&read(&sheet(1, index)))[0] as usize] += 1;
    }
    for answer in [0, 1, 3, 4, 5, 6] {
        assert!(met[answer] > 250, "{met:?}");
    }
    assert_eq!(met[2], 0);
}

#[test]
fn raw_bytes_have_every_length() {
    let lengths: Vec<usize> = (0..65).map(|i| sheet(1, 16 * i).len()).collect();
    assert_eq!(lengths, (0..65).collect::<Vec<usize>>());
}

#[test]
fn a_seed_gives_the_same_sheets_again() {
    for index in 0..200 {
        assert_eq!(sheet(5, index), sheet(5, index));
    }
    assert!((0..200).any(|index| sheet(5, index) != sheet(6, index)));
}
