//! The conversion by its table: which number, and what stands in each buffer.

mod common;
mod forms;

use common::{FAR, alternative, block, element, rule, sheet, with};
use forms::{THIRD, case_1};
use reader::convert::{RESULT, WORK, convert, convert_to};
use reader::form::Form;
use reader::grow::{Limits, unit};
use reader::random::Random;
use reader::read::read_in;
use reader::sheets::sheet_in;
use reader::tree::Sheet;

const DIRT: u8 = 170;

/// What a call leaves: its numbers, the result and the work area.
struct Left {
    numbers: (u32, u32),
    result: Vec<u8>,
    work: Vec<u8>,
}

fn lent(old: &[u8], result: usize, work: usize) -> Left {
    let (mut result, mut work) = (vec![DIRT; result], vec![DIRT; work]);
    let numbers = convert_to(THIRD, old, &mut result, &mut work);
    Left {
        numbers,
        result,
        work,
    }
}

fn is_all(byte: u8, bytes: &[u8]) -> bool {
    bytes.iter().all(|own| *own == byte)
}

/// The number of a refusal, with the buffers as the table has them.
fn refusal(old: &[u8]) -> u32 {
    let left = lent(old, RESULT, WORK);
    let (number, length) = left.numbers;
    assert!(number != 0 && length == 0, "{number} {length}");
    let kept = if number < 3 { DIRT } else { 0 };
    assert!(is_all(kept, &left.result) && is_all(kept, &left.work));
    number
}

/// The converted sheet; behind it stand zeros, and so does the work area.
fn converted(old: &[u8]) -> Vec<u8> {
    let left = lent(old, RESULT + 9, WORK + 9);
    let (number, length) = left.numbers;
    assert_eq!(number, 0);
    let (sheet, behind) = left.result.split_at(length as usize);
    assert!(is_all(0, behind) && is_all(0, &left.work));
    sheet.to_vec()
}

/// A sheet of so many bytes with one call, which has this id; behind it stand preserved ids.
fn of_length(length: usize, id: u32) -> Vec<u8> {
    let record = rule(1, 1, &[alternative(0, &[element(id, 3, &[1, 0])])]);
    let ids: Vec<u32> = (0..(length / 4 - 8 - record.len()) as u32).collect();
    let made = sheet(&[record], &ids, FAR);
    assert_eq!(made.len(), length);
    made
}

#[test]
fn case_1_has_a_third_word() {
    let (old, new) = (case_1(&[]), case_1(&[0]));
    assert_eq!((old.len(), new.len()), (276, 288));
    assert_eq!(converted(&old), new);
    assert_eq!(refusal(&new), 4);
}

#[test]
fn all_else_is_copied() {
    let call = |third: &[u32]| element(2, 3 + 256 * 4, &[&[9, 8], third].concat());
    let of = |third: &[u32], kind: u8| {
        let inner = block(1, &[alternative(1, &[call(third), element(3, 7, &[])])]);
        let action = element(4, 1, &[0, 1, 2, 5]);
        let one = vec![0, 77, 1, 1, 2, 6, 66];
        let record = rule(5, 1, &[[one, inner, action].concat(), alternative(7, &[])]);
        let mut made = sheet(&[record, rule(6, 2, &[])], &[2, 4, 900], FAR);
        let trailer = made.len() - 32;
        made[trailer] = kind;
        made
    };
    for kind in 1..=3 {
        assert_eq!(converted(&of(&[], kind)), of(&[0], kind));
    }
    let without = sheet(&[rule(1, 1, &[])], &[3], FAR);
    assert_eq!(converted(&without), without);
}

#[test]
fn the_length_comes_first() {
    for length in [0, 31, 33, 34, 35, 32_769, 32_772] {
        assert_eq!(refusal(&vec![0; length]), 1, "{length} bytes");
        assert_eq!(lent(&vec![0; length], 0, 0).numbers, (1, 0));
    }
}

#[test]
fn short_buffers_are_refused_whatever_the_sheet() {
    let least = sheet(&[], &[], FAR);
    assert_eq!(least.len(), 32);
    for old in [least, vec![0; 32], case_1(&[0])] {
        for (result, work) in [(RESULT - 1, WORK), (RESULT, WORK - 1), (0, 0)] {
            let left = lent(&old, result, work);
            assert_eq!(left.numbers, (2, 0));
            assert_eq!((left.result.len(), left.work.len()), (result, work));
            assert!(is_all(DIRT, &left.result) && is_all(DIRT, &left.work));
        }
    }
}

#[test]
fn the_sheet_is_judged_in_the_first_form() {
    let mut bad = case_1(&[]);
    bad[276 - 32] = 4;
    assert_eq!(refusal(&bad), 3);
    assert_eq!(refusal(&with(&[element(0, 3, &[1])])), 4);
    assert_eq!(refusal(&with(&[element(0, 3, &[0, 1])])), 4);
    let twice = [element(0, 3, &[1, 0]), element(0, 3, &[1, 0])];
    assert_eq!(refusal(&with(&twice)), 5);
    assert_eq!(refusal(&with(&[element(FAR[1], 3, &[1, 0])])), 6);
}

#[test]
fn a_sheet_that_grows_too_long_is_refused_by_9() {
    assert_eq!(converted(&of_length(32_764, 0)).len(), 32_768);
    assert_eq!(refusal(&of_length(32_768, 0)), 9);
    // Without a call nothing grows.
    let ids: Vec<u32> = (0..8_184).collect();
    assert_eq!(converted(&sheet(&[], &ids, FAR)).len(), 32_768);
}

/// The word so many words in front of the end.
fn word(sheet: &mut [u8], before_end: usize) -> &mut [u8] {
    let at = sheet.len() - 4 * before_end;
    &mut sheet[at..at + 4]
}

#[test]
fn nine_comes_behind_all_others() {
    let whole = of_length(32_768, 0);
    assert_eq!(lent(&whole, RESULT - 1, WORK).numbers, (2, 0));
    let mut distance = whole.clone();
    word(&mut distance, 7)[0] ^= 1;
    assert_eq!(refusal(&distance), 3);
    let mut falling = whole.clone();
    word(&mut falling, 9).fill(0);
    assert_eq!(refusal(&falling), 4);
    assert_eq!(refusal(&of_length(32_768, FAR[1])), 6);
}

#[test]
fn nine_comes_behind_equal_ids() {
    let record = rule(1, 1, &[alternative(0, &[element(0, 3, &[1, 0])])]);
    let ids: Vec<u32> = (0..8_184 - 2 * record.len() as u32).collect();
    let twice = sheet(&[record.clone(), record], &ids, FAR);
    assert_eq!(twice.len(), 32_768);
    assert_eq!(refusal(&twice), 5);
}

/// A grown unit has the same tree in both forms, and no precedence.
#[test]
fn grown_sheets_are_converted_to_what_the_tree_is_written_as() {
    let limits = Limits {
        form: THIRD,
        ..Limits::FORMAT
    };
    for index in 0..1_000 {
        let grown = unit(&mut Random::of(13, index), limits);
        let [old, new] = [Form::FIRST, THIRD].map(|form| Sheet::of_in(form, &grown).bytes());
        assert_eq!(converted(&old), new, "unit {index}");
    }
}

/// What is converted is read in the other form as the old sheet is in its own, and each number is met.
#[test]
fn sheets_of_every_sort_keep_their_parts() {
    let mut met = [0; 10];
    for index in 0..10_000 {
        let old = sheet_in(Form::FIRST, 14, index);
        let parts = read_in(Form::FIRST, &old);
        let left = lent(&old, RESULT, WORK);
        let (number, length) = left.numbers;
        met[number as usize] += 1;
        if number != 0 {
            assert_eq!(parts.err().unwrap_or(9), refusal(&old));
            continue;
        }
        let mut parts = parts.expect("a sheet");
        let mut found = read_in(THIRD, &left.result[..length as usize]).expect("a sheet");
        assert_eq!((length as usize - old.len()) % 4, 0);
        assert!(found.preserved_at >= parts.preserved_at);
        // Places are those of the other words.
        for own in [&mut parts, &mut found] {
            own.preserved_at = 0;
            own.rules.iter_mut().for_each(|rule| rule.place = 0);
        }
        assert_eq!(found, parts, "sheet {index}");
    }
    for number in [0, 1, 3, 4, 5, 6, 9] {
        assert!(met[number] > 0, "{met:?}");
    }
}

#[test]
fn the_newest_form_is_written_where_none_is_named() {
    let old = case_1(&[]);
    let (mut result, mut work) = (vec![DIRT; RESULT], vec![DIRT; WORK]);
    let numbers = convert(&old, &mut result, &mut work);
    let (mut other, mut scratch) = (vec![DIRT; RESULT], vec![DIRT; WORK]);
    let named = convert_to(Form::NEWEST, &old, &mut other, &mut scratch);
    assert_eq!((numbers, result, work), (named, other, scratch));
}
