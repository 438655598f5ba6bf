//! The codec here against the second reader, in both forms, and against its conversion, on the sheets of the readers' comparison.

use reader::convert::{RESULT, WORK, convert_to};
use reader::read::read_in;
use reader::sheets::sheet_in;
use sheets::codec::{self, MOST_BYTES, bytes_of, encode_in};
use sheets::form::Form;
use sheets::generate::give_precedences;
use sheets::parse::sheet;
use sheets::rng::Rng;

const SEED: u64 = 1;
const SHEETS: u64 = 100_000;
const THIRD: Form = Form { precedences: true };

/// What both tell of a sheet that is taken: kind, ids preserved, counters, and each rule's id and name.
type Told = (u32, usize, [u32; 5], Vec<(u32, u32)>);

/// The form as the second reader has it.
fn second_form(form: Form) -> reader::form::Form {
    reader::form::Form {
        precedences: form.precedences,
    }
}

fn second(form: Form, bytes: &[u8]) -> Result<Told, u32> {
    let p = read_in(second_form(form), bytes)?;
    let rules = p.rules.iter().map(|r| (r.id, r.name)).collect();
    Ok((p.kind, p.preserved as usize, p.counters, rules))
}

fn here(form: Form, bytes: &[u8]) -> Result<Told, u32> {
    let s = codec::read_in(form, bytes)?;
    let c = s.counters;
    let counters = [c.alternative, c.element, c.label, c.action, c.predicate];
    let rules = s.rules.iter().map(|r| (r.id, r.name)).collect();
    Ok((s.kind, s.preserved.len(), counters, rules))
}

/// A sheet of the run in that form.
fn made(form: Form, index: u64) -> Vec<u8> {
    sheet_in(second_form(form), SEED, index)
}

/// The same with precedences where it can be read.
fn with_precedences(bytes: Vec<u8>, index: u64) -> Vec<u8> {
    let Ok(mut sheet) = codec::tree_in(THIRD, &bytes) else {
        return bytes;
    };
    give_precedences(&mut sheet, &mut Rng::new(SEED, index));
    bytes_of(&encode_in(THIRD, &sheet))
}

#[test]
fn both_have_the_same_forms() {
    assert_eq!(second_form(Form::FIRST), reader::form::Form::FIRST);
    assert_eq!(second_form(Form::NEWEST), reader::form::Form::NEWEST);
}

/// Compares on sheets in the form, and asks for each number once.
fn compare(form: Form, sheet: impl Fn(u64) -> Vec<u8>) {
    let mut met = [0u64; 7];
    for index in 0..SHEETS {
        let bytes = sheet(index);
        let answer = here(form, &bytes);
        let what = format!("{form:?}, sheet {index} of seed {SEED}");
        assert_eq!(answer, second(form, &bytes), "{what}");
        met[answer.err().unwrap_or(0) as usize] += 1;
    }
    for number in [0, 1, 3, 4, 5, 6] {
        assert!(met[number] > 0, "no sheet was answered by {number}");
    }
}

#[test]
fn both_read_every_sheet_alike() {
    compare(Form::FIRST, |index| made(Form::FIRST, index));
}

#[test]
fn both_read_every_sheet_with_precedences_alike() {
    compare(THIRD, |index| with_precedences(made(THIRD, index), index));
}

#[test]
fn both_read_sheets_of_the_other_form_alike() {
    let mut taken = 0;
    for index in 0..SHEETS / 10 {
        for (written, asked) in [(Form::FIRST, THIRD), (THIRD, Form::FIRST)] {
            let bytes = made(written, index);
            let answer = here(asked, &bytes);
            assert_eq!(answer, second(asked, &bytes), "sheet {index}");
            taken += u64::from(answer.is_ok());
        }
    }
    assert!(taken > 0, "some sheets have no call");
}

/// Number, result and work area by way of the tree. Nothing is lent too short.
fn by_tree(old: &[u8]) -> (u32, Vec<u8>) {
    let sheet = match codec::read_in(Form::FIRST, old) {
        Err(refusal) => return (refusal, Vec::new()),
        Ok(sheet) => sheet,
    };
    let bytes = bytes_of(&encode_in(THIRD, &sheet));
    if bytes.len() > MOST_BYTES {
        return (9, Vec::new());
    }
    (0, bytes)
}

#[test]
fn the_conversion_writes_the_tree_that_is_read() {
    let mut met = [0u64; 10];
    let (mut result, mut work) = (vec![0; RESULT], vec![0; WORK]);
    for index in 0..SHEETS / 10 {
        let old = made(Form::FIRST, index);
        result.fill(170);
        work.fill(170);
        let (number, length) = convert_to(second_form(THIRD), &old, &mut result, &mut work);
        let (expected, bytes) = by_tree(&old);
        assert_eq!((number, length as usize), (expected, bytes.len()));
        met[number as usize] += 1;
        if number != 1 {
            assert_eq!(result[..bytes.len()], bytes, "sheet {index}");
            assert!(result[bytes.len()..].iter().chain(&work).all(|b| *b == 0));
        }
    }
    for number in [0, 1, 3, 4, 5, 6, 9] {
        assert!(met[number] > 0, "no sheet was answered by {number}");
    }
}

/// Cases 1 and 2 (SPECIFICATION 15) as they were before a call had a third word.
#[test]
fn the_old_examples_become_those_of_today() {
    let case_1 = include_bytes!("../../../examples/old/case-1.sheet");
    let case_2 = include_bytes!("../../../examples/old/case-2.sheet");
    let grammars = [
        (&case_1[..], "e: a | INT; a: e PLUS e;"),
        (&case_2[..], "%preserve a; e: a | INT; a: e PLUS e;"),
    ];
    for (old, grammar) in grammars {
        assert_eq!(old, bytes_of(&encode_in(Form::FIRST, &sheet(grammar))));
        let (mut result, mut work) = (vec![0; RESULT], vec![0; WORK]);
        let (number, length) = convert_to(second_form(THIRD), old, &mut result, &mut work);
        assert_eq!((number, length as usize), (0, old.len() + 12));
        let new = bytes_of(&encode_in(THIRD, &sheet(grammar)));
        assert_eq!(result[..length as usize], new, "{grammar}");
    }
    let today = include_bytes!("../../../examples/case-1.sheet");
    assert_eq!(
        today[..],
        bytes_of(&encode_in(THIRD, &sheet(grammars[0].1)))
    );
}
