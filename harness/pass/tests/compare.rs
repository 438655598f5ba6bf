//! The comparison passes a pass that answers alike, and stops at each kind of wrong one.

mod common;

use std::sync::atomic::AtomicBool;

use analysis::run::Difference;
use common::{Change, answering, bytes};
use pass::compare::{Buffers, Call, LEAST, Lent};
use pass::outcome::judged;
use pass::run::{Run, side_by_side};
use pass::tally::Tally;
use plans::compare::Junk;

fn compared(change: &Change) -> Result<Tally, Difference> {
    let entries = [0, 1].map(|reading| answering(reading, change));
    let mut run = Run::new([&entries[0], &entries[1]]);
    let stop = AtomicBool::new(false);
    run.seeds(3, 0..400, &stop).map(|()| run.tally)
}

fn caught(what: &str, change: &Change) {
    let differs = compared(change).expect_err("a wrong pass");
    assert!(differs.what.contains(what), "{what}: {}", differs.what);
}

#[test]
fn the_same_pass_agrees() {
    let tally = compared(&|_, _| ()).expect("agreement");
    assert_eq!(tally.sheets(), 400);
    assert!(tally.answers[0].joined > 80, "{tally:?}");
    assert!(tally.short > 300 && tally.calls > 1_100, "{tally:?}");
}

#[test]
fn threads_have_all_sheets_between_them() {
    let right: &Change = &|_, _| ();
    let entries = [0, 1].map(|reading| answering(reading, right));
    let both = side_by_side([&entries[0], &entries[1]], 3, 0..400).expect("agreement");
    assert_eq!(both, compared(right).expect("agreement"));
    let wrong: &Change = &|numbers, _| numbers[1] = 0;
    let entries = [0, 1].map(|reading| answering(reading, wrong));
    assert!(side_by_side([&entries[0], &entries[1]], 3, 0..400).is_err());
}

#[test]
fn each_number_is_looked_at() {
    caught("numbers[0]", &|numbers, _| numbers[0] ^= 1);
    caught("numbers[1]", &|numbers, _| numbers[1] = numbers[1].min(1));
    caught("numbers[2]", &|numbers, _| numbers[2] = numbers[2].min(9));
    caught("numbers[3]", &|numbers, _| numbers[3] /= 4);
    caught("numbers[4]", &|numbers, _| numbers[4] += 16);
}

/// A pass that changes a byte, if it is there, where the numbers are of a sort.
fn caught_byte(what: &str, (area, place): (usize, usize), when: fn(&[u32; 5]) -> bool) {
    caught(what, &move |numbers, lent| {
        if when(numbers)
            && let Some(byte) = lent[area].get_mut(place)
        {
            *byte ^= 2;
        }
    });
}

#[test]
fn every_byte_of_every_buffer_is_looked_at() {
    caught_byte("result byte 0", (0, 0), |numbers| numbers[0] == 0);
    caught_byte("result byte 32767", (0, 32_767), |numbers| numbers[0] == 0);
    caught_byte("trail byte 17", (1, 17), |numbers| numbers[4] > 17);
    caught_byte("trail byte 65535", (1, 65_535), |numbers| numbers[0] == 0);
    caught_byte("work area byte 65536", (2, 65_536), |numbers| {
        numbers[0] == 0
    });
    for refusal in 3..=9 {
        let mut caught = [false; 3];
        for (area, caught) in caught.iter_mut().enumerate() {
            let change = move |numbers: &mut [u32; 5], lent: &mut Buffers| {
                if numbers[0] == refusal {
                    lent[area][1_000] = 1;
                }
            };
            *caught = compared(&change).is_err();
        }
        assert_eq!(caught, [true; 3], "refusal {refusal}");
    }
}

#[test]
fn refusals_1_and_2_leave_every_byte_alone() {
    caught_byte("result byte 3", (0, 3), |numbers| numbers[0] == 1);
    caught_byte("trail byte 4", (1, 4), |numbers| numbers[0] == 1);
    caught_byte("work area byte 5", (2, 5), |numbers| numbers[0] == 1);
    caught_byte("result byte 32766", (0, 32_766), |numbers| numbers[0] == 2);
    caught_byte("trail byte 65534", (1, 65_534), |numbers| numbers[0] == 2);
    caught_byte("work area byte 65534", (2, 65_534), |numbers| {
        numbers[0] == 2
    });
}

#[test]
fn one_reading_for_both_is_caught() {
    for reading in [0, 1] {
        let entry = answering(reading, &|_, _| ());
        let mut run = Run::new([&entry, &entry]);
        assert!(run.seeds(3, 0..400, &AtomicBool::new(false)).is_err());
    }
}

const CALL: Call = Call {
    lengths: LEAST,
    starts: [1, 2, 3, 4],
    junk: Junk::Mixed,
};

fn called(call: Call, sheet: &[u8], change: &Change) -> Result<(), String> {
    let pass = answering(0, change);
    Lent::default().one(&pass, sheet, &judged(sheet).readings[0], call)
}

#[test]
fn bytes_beside_the_buffers_are_looked_at() {
    let sheet = bytes("e: a | INT; a: e PLUS;");
    for area in 0..3 {
        for place in [-1, LEAST[area] as isize] {
            let beside = move |_: &mut [u32; 5], lent: &mut Buffers| {
                // SAFETY: the buffer is part of a longer one that is lent to nobody else.
                unsafe { *lent[area].as_mut_ptr().offset(place) ^= 1 }
            };
            let told = called(CALL, &sheet, &beside).expect_err("a wrong pass");
            assert!(told.contains("beside"), "{told}");
        }
    }
}

#[test]
fn a_short_buffer_is_refusal_2_behind_1() {
    let sheet = bytes("e: a | INT; a: e PLUS;");
    for short in 0..3 {
        let mut call = CALL;
        call.lengths[short] -= 1;
        let two: &Change = &|numbers, _| assert_eq!(*numbers, [2, 0, 0, 0, 0]);
        assert_eq!(called(call, &sheet, two), Ok(()));
        let one: &Change = &|numbers, _| assert_eq!(*numbers, [1, 0, 0, 0, 0]);
        assert_eq!(called(call, &sheet[1..], one), Ok(()));
        assert!(called(call, &sheet, &|_, lent| lent[2][0] ^= 1).is_err());
    }
}
