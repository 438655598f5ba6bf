//! The words that a change of a sheet moves: all names, all carried numbers, or all precedences, and nothing else.

use pass::changes::{Renaming, carried_in, carry, carry_nothing, raise, raise_nothing, raised_in};
use reader::grow::{self, Limits};
use reader::random::Random;
use reader::tree::{Field, Sheet, Unit};
use sheets::codec::{self, MOST_NAME, encode};
use sheets::walk::names_in;

/// Good sheets, of which each word is known for what it is.
fn grown() -> impl Iterator<Item = (Unit, Sheet)> {
    let one = |index| grow::unit(&mut Random::of(9, index), Limits::FORMAT);
    let planned = |index| pass::grow::unit(&mut Random::of(9, index));
    let units = (0..300).map(one).chain((0..300).map(planned));
    units.map(|unit| (unit.clone(), Sheet::of(&unit)))
}

fn tree(sheet: &Sheet) -> sheets::tree::Sheet {
    codec::read(&sheet.bytes()).expect("a good sheet")
}

/// The places of the words in which two sheets differ.
fn moved(before: &[u32], after: &[u32]) -> Vec<usize> {
    assert_eq!(before.len(), after.len());
    (0..before.len())
        .filter(|at| before[*at] != after[*at])
        .collect()
}

#[test]
fn a_renaming_moves_names_and_nothing_else() {
    let mut all = 0;
    for (_, sheet) in grown() {
        let mut changed = tree(&sheet);
        let names = names_in(&changed);
        // All of them down by one: no name stays, and 0 is in place of the least, where that is 1.
        let down = names.iter().map(|name| (*name, name - 1));
        Renaming::of(down).apply(&mut changed);
        let wanted = |field| matches!(field, Field::RuleName | Field::Name | Field::LabelName);
        let places = sheet.places(wanted);
        assert_eq!(moved(&sheet.words, &encode(&changed)), places);
        assert!(places.iter().all(|at| names.contains(&sheet.words[*at])));
        all += places.len();
    }
    assert!(all > 10_000, "{all}");
}

#[test]
fn precedences_are_the_third_words_of_calls() {
    let mut all = 0;
    for (_, sheet) in grown() {
        let mut changed = tree(&sheet);
        let up: Vec<u32> = raised_in(&changed)
            .iter()
            .map(|own| own.wrapping_add(1))
            .collect();
        raise(&mut changed, up.iter().copied());
        assert_eq!(raised_in(&changed), up);
        let places = moved(&sheet.words, &encode(&changed));
        assert_eq!(places.len(), up.len());
        // Each stands behind the arguments of a call, and these behind a name.
        assert!(places.iter().all(|at| {
            let three = [at - 2, at - 1, *at].map(|at| sheet.fields[at]);
            three == [Field::Name, Field::Free, Field::Free]
        }));
        raise_nothing(&mut changed);
        assert!(raised_in(&changed).iter().all(|own| *own == 0));
        all += places.len();
    }
    assert!(all > 1_000, "{all}");
}

#[test]
fn carried_numbers_are_those_of_alternatives_and_elements() {
    let mut all = 0;
    for (unit, sheet) in grown() {
        let mut changed = tree(&sheet);
        let up: Vec<u32> = carried_in(&changed)
            .iter()
            .map(|own| own.wrapping_add(1))
            .collect();
        carry(&mut changed, up.iter().copied());
        assert_eq!(carried_in(&changed), up);
        // Each stands behind an id of an alternative or of an element.
        let places = sheet.places(|field| matches!(field, Field::Id(0 | 1)));
        let places: Vec<usize> = places.iter().map(|at| at + 1).collect();
        assert!(places.iter().all(|at| sheet.fields[*at] == Field::Free));
        assert_eq!(moved(&sheet.words, &encode(&changed)), places);
        carry_nothing(&mut changed);
        assert!(carried_in(&changed).iter().all(|own| *own == 0));
        all += places.len();
        assert_eq!(unit.rules.len(), changed.rules.len());
    }
    assert!(all > 10_000, "{all}");
}

#[test]
fn a_random_renaming_is_one_to_one_and_gives_names() {
    let mut random = Random::new(4);
    let [mut least, mut most, mut among] = [0; 3];
    for (_, sheet) in grown() {
        let mut changed = tree(&sheet);
        let before = names_in(&changed);
        let renaming = Renaming::random(&before, &mut random);
        renaming.apply(&mut changed);
        let after = names_in(&changed);
        assert_eq!(before.len(), after.len());
        assert!(!after.contains(&0));
        assert_eq!(
            codec::read(&codec::bytes_of(&encode(&changed))),
            Ok(changed)
        );
        least += usize::from(after.contains(&1));
        most += usize::from(after.contains(&MOST_NAME));
        among += usize::from(before == after && renaming.moved() != 0);
    }
    assert!(least > 100 && most > 100 && among > 100);
}

/// One name that stands as rule, call, token, label, option and reference is moved everywhere alike.
#[test]
fn all_sorts_of_names_are_renamed_by_one_function() {
    let text = "n_7: <N_7=1> n_7=N_7<N_7=2> {$N_7} ( n_7 | &{$N_7.N_7} );";
    let mut sheet = sheets::parse::sheet(text);
    assert_eq!(names_in(&sheet), [7].into());
    Renaming::of([(7, 9)]).apply(&mut sheet);
    assert_eq!(names_in(&sheet), [9].into());
    assert_eq!(sheet, sheets::parse::sheet(&text.replace('7', "9")));
}
