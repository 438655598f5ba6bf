//! The comparison of a conversion lets the second account through, and finds what is wrong in another.

use pass::converted::Yard;
use pass::old::{of_today, sheet, written};
use reader::convert::{RESULT, WORK, convert as second};
use reader::form::Form;
use reader::read::read_in;
use sheets::codec::{bytes_of, encode};
use sheets::parse::sheet as tree;
use sheets::tree::Sheet;

fn right(old: &[u8], result: &mut [u8], work: &mut [u8], numbers: &mut [u32; 2]) {
    *numbers = second(old, result, work).into();
}

fn case_1() -> Sheet {
    tree("e: a | INT; a: e PLUS e;")
}

/// Asks about sheets of all sorts, up to the first that differs.
fn asked(
    convert: impl Fn(&[u8], &mut [u8], &mut [u8], &mut [u32; 2]) + Sync,
    sheets: u64,
) -> Result<Yard, String> {
    let mut yard = Yard::default();
    for index in 0..sheets {
        yard.ask(&convert, "a sheet", &sheet(3, index), index as usize)?;
    }
    Ok(yard)
}

#[test]
fn the_second_account_comes_through() {
    let tally = asked(right, 800)
        .map(|yard| yard.tally)
        .expect("no difference");
    assert_eq!((tally.sheets(), tally.calls), (800, 3_200));
    for number in [0, 1, 3, 4, 5, 6, 9] {
        assert!(tally.numbers[number] > 0, "{tally:?}");
    }
    assert!(tally.grown > 50 && tally.longest > 5, "{tally:?}");
    assert!(tally.short > 100 && tally.small > 100, "{tally:?}");
    let told = tally.to_string();
    assert!(
        told.starts_with("converted ") && told.contains("; refused by 9 "),
        "{told}"
    );
    assert!(!told.contains("refused by 2"), "{told}");
}

#[test]
fn a_wrong_conversion_is_found() {
    type Change = fn(&[u8], &mut [u8], &mut [u8], &mut [u32; 2]);
    let wrong: [(&str, Change); 6] = [
        ("another length", |_, _, _, numbers| {
            numbers[1] ^= 4 * u32::from(numbers[0] == 0)
        }),
        ("another refusal", |_, _, _, numbers| {
            numbers[0] = if numbers[0] == 9 { 5 } else { numbers[0] }
        }),
        ("a byte behind the sheet", |_, result, _, numbers| {
            let end = numbers[1] as usize;
            if numbers[0] == 0 && end < result.len() {
                result[end] = 1;
            }
        }),
        ("the first distance of before", |old, result, _, numbers| {
            if numbers[0] == 0 {
                let (from, to) = (old.len() - 28, numbers[1] as usize - 28);
                result[to..to + 4].copy_from_slice(&old[from..from + 4]);
            }
        }),
        ("a work area that is not cleared", |_, _, work, numbers| {
            if numbers[0] == 4 {
                work[WORK - 1] = 1;
            }
        }),
        ("a result that is not cleared", |_, result, _, numbers| {
            if numbers[0] == 9 {
                result[RESULT - 1] = 1;
            }
        }),
    ];
    for (what, change) in wrong {
        let convert = |old: &[u8], result: &mut [u8], work: &mut [u8], numbers: &mut [u32; 2]| {
            right(old, result, work, numbers);
            change(old, result, work, numbers);
        };
        assert!(asked(convert, 400).is_err(), "{what}");
    }
}

/// Refusal 2 by the length of the new sheet, as one might have it.
#[test]
fn a_result_that_would_do_is_too_short_all_the_same() {
    let convert = |old: &[u8], result: &mut [u8], work: &mut [u8], numbers: &mut [u32; 2]| {
        let mut enough = vec![0; RESULT.max(result.len())];
        *numbers = second(old, &mut enough, work).into();
        if numbers[0] != 2 && result.len() >= numbers[1] as usize {
            let length = result.len();
            result.copy_from_slice(&enough[..length]);
        }
    };
    assert!(asked(convert, 40).is_err());
}

#[test]
fn trees_are_written_as_they_were() {
    let tree = case_1();
    let old = written(&tree);
    assert_eq!((old.len(), read_in(Form::FIRST, &old).is_ok()), (276, true));
    let today = bytes_of(&encode(&tree));
    assert_eq!((today.len(), of_today(&today)), (288, Some(old)));
    assert_eq!(of_today(&[0; 28]), None);
}
