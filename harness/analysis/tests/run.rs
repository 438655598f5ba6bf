//! What a run is made of, and how the stored answers are read.

mod common;

use analysis::facts::{Facts, facts};
use analysis::grow::unit;
use analysis::run::sheet;
use analysis::stored::{sheets_of, stored};
use reader::random::Random;
use reader::read::read;
use reader::tree::Sheet;

#[test]
fn what_is_grown_is_accepted() {
    for index in 0..2_000 {
        let grown = unit(&mut Random::of(5, index));
        let parts = read(&Sheet::of(&grown).bytes()).expect("a good sheet");
        let named = grown.rules.iter().map(|rule| (rule.id, rule.name));
        assert!(named.eq(parts.rules.iter().map(|rule| (rule.id, rule.name))));
    }
}

#[test]
fn a_run_has_enough_of_each_sort() {
    let mut answers = [0; 7];
    let (mut cyclic, mut parted, mut several, mut wide, mut unsorted) = (0, 0, 0, 0, 0);
    for index in 0..4_000 {
        let bytes = sheet(1, index);
        let [rust, textbook] = [false, true].map(|reading| facts(&bytes, reading));
        common::assert_zeros_behind(&rust);
        answers[rust.numbers[0] as usize] += 1;
        cyclic += usize::from(rust.numbers[2] > 0);
        parted += usize::from(rust.cycles != textbook.cycles);
        several += usize::from(rust.numbers[2] > 2);
        wide += usize::from(rust.cycles.iter().any(|row| row[0] != 0 && row[1] != 0));
        unsorted += usize::from(falls(&rust));
    }
    assert!(answers[0] > 2_500, "{answers:?}");
    for refusal in [1, 3, 4, 5, 6] {
        assert!(answers[refusal] > 30, "{answers:?}");
    }
    let counts = [cyclic, parted, several, wide, unsorted];
    assert!(
        cyclic > 1_000 && counts.iter().all(|count| *count > 50),
        "{counts:?}"
    );
}

/// Whether a cycle's first member in the sheet is in front of that of the cycle before.
fn falls(found: &Facts) -> bool {
    let cycles = &found.cycles[..found.numbers[2] as usize];
    let firsts: Vec<usize> = cycles.iter().map(|row| common::members(*row)[0]).collect();
    !firsts.is_sorted()
}

#[test]
fn a_seed_gives_the_same_sheets_again() {
    assert!((0..200).all(|index| sheet(5, index) == sheet(5, index)));
    assert!((0..200).any(|index| sheet(5, index) != sheet(6, index)));
}

#[test]
fn every_record_has_its_sheet() {
    let text =
        "sheet x 1\nin 1 2\nok 0 0\nout same\n\nsheet x 2\nhex 01ff\nrefused 1\n\nsheet x 3\nin\n";
    let read = sheets_of(text).expect("records");
    let read: Vec<_> = read.iter().map(|one| (&*one.name, &*one.bytes)).collect();
    let bytes: [&[u8]; 3] = [&[1, 0, 0, 0, 2, 0, 0, 0], &[1, 255], &[]];
    assert_eq!(
        read,
        [("x 1", bytes[0]), ("x 2", bytes[1]), ("x 3", bytes[2])]
    );
    assert!(sheets_of("sheet x\nin 1 b").is_err());
    assert!(sheets_of("sheet x\nhex 1").is_err());
    assert!(stored().expect("the stored answers").len() >= 800);
}
