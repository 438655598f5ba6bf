//! The stored answers: what they hold, and that they are remade as they stand.

use std::collections::BTreeSet;
use std::fs;
use std::path::Path;

use oracle::book::{Counts, FILES, count};
use oracle::folded::Reading;

fn stored(name: &str) -> String {
    let folder = Path::new(env!("CARGO_MANIFEST_DIR")).join("../answers");
    fs::read_to_string(folder.join(name)).unwrap_or_else(|fault| panic!("{name}: {fault}"))
}

#[test]
fn every_file_is_remade_byte_for_byte() {
    for file in &FILES {
        assert!(
            stored(file.name) == file.text(),
            "{} is not what would be made",
            file.name
        );
    }
}

#[test]
fn there_are_enough_of_each_sort() {
    let mut counts = Counts::default();
    for file in &FILES {
        count(&stored(file.name), &mut counts);
    }
    assert!(counts.sheets >= 400, "{counts:?}");
    assert!(counts.joined >= 150, "{counts:?}");
    assert!(
        (7..=9).all(|refusal| counts.refused[refusal] >= 20),
        "{counts:?}"
    );
    assert!(
        (1..=11).all(|clause| counts.clauses[clause] >= 5),
        "{counts:?}"
    );
    assert!(
        [1, 3, 4, 5, 6]
            .iter()
            .all(|refusal| counts.refused[*refusal] >= 5),
        "{counts:?}"
    );
}

#[test]
fn no_sheet_has_two_records_and_all_examples_have_one() {
    let mut names = BTreeSet::new();
    for file in &FILES {
        let text = stored(file.name);
        for line in text.lines().filter(|line| line.starts_with("sheet ")) {
            let own = (file.reading == Reading::Textbook, line.to_owned());
            assert!(names.insert(own), "{line} stands twice");
        }
    }
    for number in 1..=12 {
        assert!(names.contains(&(false, format!("sheet example {number}"))));
    }
    for name in ["13", "13-with-31", "14-28-bytes", "14-32-bytes"] {
        assert!(names.contains(&(false, format!("sheet example {name}"))));
    }
}

#[test]
fn no_origin_list_has_two_entries() {
    let mut lists = 0;
    for file in &FILES {
        for line in stored(file.name)
            .lines()
            .filter(|line| line.starts_with("o "))
        {
            assert_eq!(line.split(' ').count(), 5, "{}: {line}", file.name);
            lists += 1;
        }
    }
    assert!(lists > 6_000, "{lists}");
}

#[test]
fn records_are_counted_by_their_lines() {
    let mut counts = Counts::default();
    count(
        "sheet x 1\nok 0 0\nc 4 1 2\n\nsheet x 2\nok 2 3\n\nsheet x 3\nrefused 8\n",
        &mut counts,
    );
    assert_eq!((counts.sheets, counts.joined), (3, 1));
    assert_eq!((counts.refused[8], counts.clauses[4]), (1, 1));
}
