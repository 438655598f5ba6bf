//! Sheets in both forms: case 1 word by word, trees through both, and calls with a precedence.

use std::collections::BTreeSet;

use sheets::codec::{bytes_of, encode, encode_in, read, read_in, tree, tree_in};
use sheets::form::Form;
use sheets::generate::{PROFILES, damaged, give_precedences};
use sheets::parse::sheet;
use sheets::rng::Rng;
use sheets::tree::Sheet;
use sheets::walk::{self, without_precedences};

const THIRD: Form = Form { precedences: true };
const STREAM: u64 = 5;

fn precedences(sheet: &Sheet) -> Vec<u32> {
    let mut found = Vec::new();
    walk::precedences(&mut sheet.clone(), &mut |word| found.push(*word));
    found
}

fn with_precedences(sheet: &Sheet, seed: u64) -> Sheet {
    let mut made = sheet.clone();
    give_precedences(&mut made, &mut Rng::new(STREAM, seed));
    made
}

/// Case 1 (SPECIFICATION 15.20); its calls have these words for a third one.
fn case_1(thirds: [u32; 3]) -> Vec<u32> {
    let [first, second, third] = thirds;
    let e = [1, 1, 0, 2];
    let call_a = [10, 0, 0, 0, 1, 20, 0, 3, 0, 0, 0, 2, 0, first];
    let int = [11, 0, 0, 0, 1, 21, 0, 4, 0, 0, 0, 3];
    let a = [2, 2, 0, 1, 12, 0, 0, 0, 3];
    let sum = [
        22, 0, 3, 0, 0, 0, 1, 0, second, 23, 0, 4, 0, 0, 0, 4, 24, 0, 3, 0, 0, 0, 1, 0, third,
    ];
    let trailer = [2, 64, 0, 13, 25, 0, 0, 0];
    [&e[..], &call_a, &int, &a, &sum, &trailer].concat()
}

#[test]
fn case_1_has_a_third_word_in_each_call() {
    let tree = sheet("e: a | INT; a: e PLUS e;");
    assert_eq!(encode_in(Form::FIRST, &tree).len() * 4, 276);
    let words = encode_in(THIRD, &tree);
    assert_eq!(words.len() * 4, 288);
    assert_eq!(words, case_1([0; 3]));
    for thirds in [[0, 1, 2], [u32::MAX, 0, 7]] {
        let bytes = bytes_of(&case_1(thirds));
        let found = read_in(THIRD, &bytes).expect("a sheet");
        assert_eq!(precedences(&found), thirds);
        assert_eq!(without_precedences(&found), tree);
        assert_eq!(bytes_of(&encode_in(THIRD, &found)), bytes);
    }
}

#[test]
fn case_1_is_refused_by_4_in_the_other_form() {
    let tree = sheet("e: a | INT; a: e PLUS e;");
    for (written, asked) in [(Form::FIRST, THIRD), (THIRD, Form::FIRST)] {
        let bytes = bytes_of(&encode_in(written, &tree));
        assert_eq!(read_in(asked, &bytes), Err(4));
        assert_eq!(read_in(written, &bytes), Ok(tree.clone()));
    }
}

#[test]
fn a_call_cut_in_its_third_word_is_refused_by_4() {
    let mut words = encode_in(THIRD, &sheet("e: X e;"));
    let last = words.len() - 9;
    words.remove(last);
    words[last + 1] -= 1;
    assert_eq!(read_in(THIRD, &bytes_of(&words)), Err(4));
    assert!(read_in(Form::FIRST, &bytes_of(&words)).is_ok());
}

#[test]
fn generated_sheets_are_read_in_the_form_in_which_they_were_written() {
    for profile in &PROFILES {
        for seed in 0..50 {
            let made = without_precedences(&profile.sheet(seed));
            let old = read_in(Form::FIRST, &bytes_of(&encode_in(Form::FIRST, &made)));
            assert_eq!(old.as_ref(), Ok(&made), "{} {seed}", profile.name);
            let made = with_precedences(&made, seed);
            let words = encode_in(THIRD, &made);
            if words.len() <= 8_192 {
                let new = read_in(THIRD, &bytes_of(&words));
                assert_eq!(new, Ok(made), "{} {seed}", profile.name);
            }
        }
    }
}

#[test]
fn the_newest_form_is_used_where_none_is_named() {
    for seed in 0..500 {
        let bytes = damaged(seed);
        assert_eq!(read(&bytes), read_in(Form::NEWEST, &bytes));
        let found = tree(&bytes);
        assert_eq!(found, tree_in(Form::NEWEST, &bytes));
        if let Ok(sheet) = found {
            assert_eq!(encode(&sheet), encode_in(Form::NEWEST, &sheet));
        }
    }
}

#[test]
#[should_panic(expected = "no place for a precedence")]
fn a_precedence_has_no_word_in_the_first_form() {
    let found = read_in(THIRD, &bytes_of(&case_1([0, 0, 1]))).expect("a sheet");
    encode_in(Form::FIRST, &found);
}

#[test]
fn precedences_are_given_to_calls_alone_and_by_the_seed() {
    let mut met = BTreeSet::new();
    let (mut none, mut calls) = (0, 0);
    for profile in &PROFILES {
        for seed in 0..20 {
            let plain = without_precedences(&profile.sheet(seed));
            let made = with_precedences(&plain, seed);
            assert_eq!(made, with_precedences(&plain, seed));
            assert_eq!(without_precedences(&made), plain);
            let given = precedences(&made);
            none += given.iter().filter(|word| **word == 0).count();
            calls += given.len();
            met.extend(given);
        }
    }
    assert_eq!(met, BTreeSet::from([0, 1, 2, u32::MAX]));
    assert!(
        3 * none > calls && 3 * none < 2 * calls,
        "{none} of {calls}"
    );
}
