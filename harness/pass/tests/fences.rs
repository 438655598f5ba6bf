//! What is lent between fences is what a pass needs, and a byte beside it ends the program.

mod common;

use std::process::Command;

use common::{answering, bytes};
use pass::compare::Buffers;
use pass::fenced::Yard;
use pass::fences::{Fenced, Side, watch};
use pass::outcome::judged;
use pass::run::sheet;

#[test]
fn a_right_pass_comes_through() {
    let entries = [0, 1].map(|reading| answering(reading, &|_, _| ()));
    let mut yard = Yard::default();
    for index in 0..60 {
        let bytes = sheet(1, index);
        let asked = yard.ask(
            [&entries[0], &entries[1]],
            "a sheet",
            &bytes,
            &judged(&bytes),
            index as usize,
        );
        assert_eq!(asked, Ok(()));
    }
    assert_eq!(yard.calls, 60 * 8);
}

#[test]
fn a_wrong_answer_is_told() {
    let right = answering(0, &|_, _| ());
    for place in 0..5 {
        let change = move |numbers: &mut [u32; 5], _: &mut Buffers| numbers[place] ^= 1;
        asked(&right, &answering(0, &change)).expect_err("a wrong number");
    }
    let wrong = answering(0, &|numbers, lent| lent[2][9] ^= u8::from(numbers[0] == 0));
    asked(&right, &wrong).expect_err("a byte in the work area");
}

type Entry<'a> = pass::compare::Pass<'a>;

fn asked(one: Entry, other: Entry) -> Result<(), String> {
    let bytes = bytes("e: a | INT; a: e PLUS;");
    Yard::default().ask([one, other], "case", &bytes, &judged(&bytes), 1)
}

#[test]
fn what_is_lent_stands_at_its_fence() {
    let mut fenced = Fenced::new(5_000);
    assert_eq!(fenced.room(), 8_192);
    let front = fenced.lend(10, Side::Front).as_ptr() as usize;
    let back = fenced.lend(10, Side::Back).as_ptr() as usize;
    assert_eq!((front % 4_096, (back + 10) % 4_096), (0, 0));
    assert_eq!(back + 10 - front, fenced.room());
}

/// Runs one of the tests below on its own; it must end, and have said which call was under way.
fn ends(test: &str) {
    let program = std::env::current_exe().expect("this program");
    let ended = Command::new(program)
        .args(["--exact", test, "--ignored", "--nocapture"])
        .output()
        .expect("this program runs");
    let said = String::from_utf8_lossy(&ended.stderr);
    assert_eq!(ended.status.code(), Some(1), "{test}: {said}");
    assert!(said.contains("beside what is lent was touched: case (pass, "));
}

#[test]
fn a_byte_beside_ends_the_program() {
    ends("reads_behind_the_sheet");
    ends("writes_to_the_sheet");
    ends("writes_in_front_of_the_result");
    ends("writes_behind_the_work_area");
    ends("writes_behind_the_numbers");
}

fn touched(touch: fn(&[u8], &mut Buffers, &mut [u32; 5])) {
    watch();
    let right = answering(0, &|_, _| ());
    let wrong = |sheet: &[u8], mut lent: Buffers, numbers: &mut [u32; 5]| {
        touch(sheet, &mut lent, numbers);
        right(sheet, lent, numbers);
    };
    let _ = asked(&wrong, &right);
}

// SAFETY of all of these: they are run alone, to be ended by what they touch.

#[test]
#[ignore = "ends the program"]
fn reads_behind_the_sheet() {
    touched(|sheet, _, numbers| {
        numbers[0] = unsafe { sheet.as_ptr().add(sheet.len()).read_volatile() }.into();
    });
}

#[test]
#[ignore = "ends the program"]
fn writes_to_the_sheet() {
    touched(|sheet, _, _| unsafe { sheet.as_ptr().cast_mut().write_volatile(1) });
}

#[test]
#[ignore = "ends the program"]
fn writes_in_front_of_the_result() {
    touched(|_, lent, _| unsafe { lent[0].as_mut_ptr().sub(1).write_volatile(1) });
}

#[test]
#[ignore = "ends the program"]
fn writes_behind_the_work_area() {
    touched(|_, lent, _| unsafe { lent[2].as_mut_ptr().add(lent[2].len()).write_volatile(1) });
}

#[test]
#[ignore = "ends the program"]
fn writes_behind_the_numbers() {
    touched(|_, _, numbers| unsafe { numbers.as_mut_ptr().add(5).write_volatile(1) });
}
