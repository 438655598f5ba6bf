//! Sheets in both forms: with two words of a call, and with a third one behind them.

mod common;
mod forms;

use common::{FAR, alternative, block, bytes, element, rule, sheet, with};
use forms::{THIRD, case_1};
use reader::form::Form;
use reader::grow::{Limits, each_id, give_precedences, unit};
use reader::random::Random;
use reader::read::{Parts, read, read_in};
use reader::tree::{Alternative, Element, Payload, Rule, Sheet, Unit};

fn number_in(form: Form, sheet: &[u8]) -> u32 {
    read_in(form, sheet).err().unwrap_or(0)
}

fn places(parts: &Parts) -> Vec<u32> {
    parts.rules.iter().map(|rule| rule.place).collect()
}

#[test]
fn case_1_in_both_forms() {
    let (old, new) = (case_1(&[]), case_1(&[0]));
    assert_eq!((old.len(), new.len()), (276, 288));
    let old = read_in(Form::FIRST, &old).expect("a sheet");
    let new = read_in(THIRD, &new).expect("a sheet");
    assert_eq!((old.preserved_at, places(&old)), (61, vec![0, 29]));
    assert_eq!((new.preserved_at, places(&new)), (64, vec![0, 30]));
    for parts in [old, new] {
        assert_eq!((parts.alternatives, parts.elements), (3, 5));
        assert_eq!(parts.counters, [13, 25, 0, 0, 0]);
    }
}

#[test]
fn case_1_in_the_other_form_is_refused() {
    assert_eq!(number_in(THIRD, &case_1(&[])), 4);
    assert_eq!(number_in(Form::FIRST, &case_1(&[0])), 4);
}

#[test]
fn a_precedence_is_any_word() {
    for word in [0, 1, 2, 255, 65_536, u32::MAX - 1, u32::MAX] {
        assert_eq!(number_in(THIRD, &case_1(&[word])), 0, "{word}");
        assert_eq!(number_in(Form::FIRST, &case_1(&[word])), 4, "{word}");
    }
}

#[test]
fn a_call_at_the_end_is_whole_or_cut() {
    for (form, words) in [(Form::FIRST, 2), (THIRD, 3)] {
        for given in 0..=4 {
            let last = element(0, 3, &[1, 0, 0, 0][..given]);
            let expected = if given == words { 0 } else { 4 };
            let got = number_in(form, &with(&[last]));
            assert_eq!(got, expected, "{form:?}, {given} words");
        }
    }
}

#[test]
fn a_call_ends_in_front_of_the_preserved_list() {
    let record = rule(1, 1, &[alternative(0, &[element(0, 3, &[1, 0])])]);
    let words = [record, vec![7]].concat();
    let of = |form: Form, list: u32| {
        let trailer = [2, words.len() as u32, list, 9, 9, 9, 9, 9];
        number_in(form, &bytes(&[&words[..], &trailer].concat()))
    };
    assert_eq!((of(Form::FIRST, 1), of(THIRD, 1)), (0, 4));
    assert_eq!((of(Form::FIRST, 0), of(THIRD, 0)), (4, 0));
}

#[test]
fn a_sheet_without_a_call_is_the_same_in_both() {
    let inner = block(1, &[alternative(1, &[element(2, 7, &[])])]);
    let action = element(3, 1, &[0, 1, 2, 5]);
    let bytes = sheet(
        &[rule(1, 1, &[alternative(0, &[inner, action])])],
        &[4],
        FAR,
    );
    assert_eq!(number_in(Form::FIRST, &bytes), 0);
    assert_eq!(read_in(Form::FIRST, &bytes), read_in(THIRD, &bytes));
}

#[test]
fn the_newest_form_is_read_where_none_is_named() {
    for third in [&[][..], &[0]] {
        let bytes = case_1(third);
        assert_eq!(read(&bytes), read_in(Form::NEWEST, &bytes));
    }
}

/// Of every call, nested ones too, in no order.
fn precedences(unit: &Unit) -> Vec<u32> {
    let mut found = Vec::new();
    let mut lists: Vec<_> = unit.rules.iter().flat_map(|r| &r.alternatives).collect();
    while let Some(alternative) = lists.pop() {
        for element in &alternative.elements {
            match &element.payload {
                Payload::Call(_, _, precedence) => found.push(*precedence),
                Payload::Block(inner) => lists.extend(inner),
                _ => {}
            }
        }
    }
    found
}

#[test]
fn grown_sheets_are_read_in_the_form_in_which_they_are_written() {
    let mut met = [false; 4];
    for form in [Form::FIRST, THIRD] {
        let limits = Limits {
            form,
            ..Limits::FORMAT
        };
        for index in 0..1_000 {
            let mut random = Random::of(12, index);
            let mut grown = unit(&mut random, limits);
            if form == THIRD {
                give_precedences(&mut grown, &mut random);
            }
            let parts = read_in(form, &Sheet::of_in(form, &grown).bytes()).expect("a good sheet");
            let mut counts = [0; 5];
            each_id(&mut grown, &mut |sort, _| counts[sort] += 1);
            assert_eq!([parts.alternatives, parts.elements], [counts[0], counts[1]]);
            for (met, word) in met.iter_mut().zip([0, 1, 2, u32::MAX]) {
                *met |= precedences(&grown).contains(&word);
            }
        }
    }
    assert_eq!(met, [true; 4]);
}

#[test]
#[should_panic(expected = "no place for a precedence")]
fn a_precedence_has_no_word_in_the_first_form() {
    let call = Element {
        id: 0,
        carried: 0,
        quantifier: 0,
        label: None,
        options: Vec::new(),
        payload: Payload::Call(1, 0, 1),
    };
    let mut rule = Rule::default();
    rule.alternatives.push(Alternative::default());
    rule.alternatives[0].elements.push(call);
    let mut unit = Unit::default();
    unit.rules.push(rule);
    Sheet::of_in(Form::FIRST, &unit);
}
