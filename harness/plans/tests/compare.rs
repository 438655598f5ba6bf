//! The comparison passes a planner that answers alike, and stops at each kind of wrong one.

mod common;

use analysis::compare::WORK;
use analysis::run::Difference;
use plans::answer::Answer;
use plans::compare::{Call, Junk, Lent, Planner, Question};
use plans::judge::judged;
use plans::list::List;
use plans::run::Run;
use plans::tally::Tally;
use sheets::codec::{bytes_of, encode};
use sheets::parse::sheet;

fn compared(change: &dyn Fn(&mut Answer)) -> Result<Tally, Difference> {
    let (nth, first) = (common::nth(change), common::first(change));
    let mut run = Run::new(Planner {
        nth: &nth,
        first: &first,
    });
    run.seeds(3, 0..400).map(|()| run.tally)
}

fn caught(what: &str, change: impl Fn(&mut Answer)) {
    let differs = compared(&change).expect_err("a wrong planner");
    assert!(differs.what.contains(what), "{what}: {}", differs.what);
}

fn caught_in_list(what: &str, change: impl Fn(&mut List)) {
    caught(what, |answer| {
        if let Some(list) = &mut answer.list {
            change(list);
        }
    });
}

#[test]
fn the_same_planner_agrees() {
    let tally = compared(&|_| ()).expect("agreement");
    assert_eq!(tally.sheets(), 400);
    assert!(tally.outcomes[0].planned > 100, "{tally:?}");
}

#[test]
fn each_number_is_looked_at() {
    for place in 0..8 {
        caught(&format!("numbers[{place}]"), |answer| {
            answer.numbers[place] ^= 1
        });
    }
    // Only where there is a plan, or a decline.
    caught("numbers[3]", |answer| answer.numbers[3] = 0);
    caught("numbers[4]", |answer| {
        answer.numbers[4] = answer.numbers[4].min(10)
    });
    caught("numbers[5]", |answer| {
        answer.numbers[5] = answer.numbers[5].min(5)
    });
}

#[test]
fn the_sets_of_rules_and_the_clauses_are_looked_at() {
    caught("removable", |answer| answer.removable = [0; 2]);
    caught("removable", |answer| answer.removable.swap(0, 1));
    caught("cycle", |answer| answer.cycle = [0; 2]);
    caught("clauses[1]", |answer| answer.clauses[1] = 0);
    caught("clauses[127]", |answer| answer.clauses[127] = 1);
}

#[test]
fn the_whole_list_is_looked_at() {
    caught_in_list("slot", |list| list.heads[0][0] |= 32_768);
    caught_in_list("slot", |list| {
        list.heads.iter_mut().for_each(|head| head[0] %= 32_768);
    });
    caught_in_list("origin", |list| {
        list.heads
            .iter_mut()
            .for_each(|head| head[1] = head[0] % 32_768);
    });
    caught_in_list("", |list| list.heads.reverse());
    caught_in_list("element", |list| list.elements.reverse());
    caught_in_list("element", |list| {
        list.elements.iter_mut().for_each(|place| *place %= 32_768);
    });
    caught_in_list("option", |list| list.options.reverse());
    caught_in_list("where no option stands", |list| {
        list.options.iter_mut().for_each(|option| option.name = 0);
    });
}

#[test]
fn one_reading_for_both_is_caught() {
    for reading in [0, 1] {
        let nth = |s: &[u8], w: &mut [u8], _, n, numbers: &mut [u32; 8], row: &mut [u64; 2]| {
            common::nth(&|_| ())(s, w, reading, n, numbers, row);
        };
        let first = common::first(&|_| ());
        let mut run = Run::new(Planner {
            nth: &nth,
            first: &first,
        });
        assert!(run.seeds(3, 0..400).is_err());
    }
}

const CALL: Call = Call {
    question: Question::Nth(0),
    textbook: 0,
    work: WORK,
    start: 3,
    junk: Junk::Mixed,
};

/// One call of a planner that does something to the work area besides.
fn called(call: Call, sheet: &[u8], wrong: impl Fn(&mut [u8])) -> Result<Answer, String> {
    let right = common::nth(&|_| ());
    let nth = |s: &[u8], w: &mut [u8], t, n, numbers: &mut [u32; 8], row: &mut [u64; 2]| {
        right(s, w, t, n, numbers, row);
        wrong(w);
    };
    let first = common::first(&|_| ());
    let planner = Planner {
        nth: &nth,
        first: &first,
    };
    let judged = judged(sheet);
    let judged = judged
        .as_ref()
        .map(|both| &both[0])
        .map_err(|number| *number);
    Lent::default().one(planner, sheet, judged, call)
}

#[test]
fn a_work_area_is_left_alone_where_it_is_too_short_or_the_sheet_is() {
    let sheet = bytes_of(&encode(&sheet("e: a | INT; a: e PLUS;")));
    assert!(called(CALL, &sheet, |_| ()).is_ok());
    assert!(called(CALL, &sheet, |work| work[40_000] ^= 1).is_ok());
    assert!(called(CALL, &sheet, |work| work[0] ^= 1).is_err());
    let short = Call {
        work: WORK - 1,
        ..CALL
    };
    assert_eq!(called(short, &sheet, |_| ()), Ok(Answer::refused(2)));
    assert!(called(short, &sheet, |work| work[0] ^= 1).is_err());
    assert_eq!(called(short, &sheet[1..], |_| ()), Ok(Answer::refused(1)));
    assert!(called(CALL, &sheet[1..], |work| work[0] ^= 1).is_err());
}

#[test]
fn a_work_area_is_cleared_where_there_is_no_plan() {
    let declined = bytes_of(&encode(&sheet("e: a; a: e PLUS;")));
    let (mut refused, none) = (declined.clone(), Question::Nth(1));
    let kind = refused.len() - 32;
    refused[kind] = 9;
    for (question, sheet) in [
        (CALL.question, &declined),
        (none, &declined),
        (CALL.question, &refused),
    ] {
        let call = Call { question, ..CALL };
        let given = called(call, sheet, |_| ()).expect("agreement");
        assert_ne!(given.numbers[0] + given.numbers[2], 0);
        for place in [0, 40_000, WORK - 1] {
            let told = called(call, sheet, |work| work[place] = 7).expect_err("a wrong planner");
            assert_eq!(
                told,
                format!("byte {place} of the work area is not cleared")
            );
        }
    }
}

#[test]
fn bytes_beside_the_work_area_are_looked_at() {
    let sheet = bytes_of(&encode(&sheet("e: a | INT; a: e PLUS;")));
    for place in [-1, WORK as isize] {
        let beside = move |work: &mut [u8]| {
            // SAFETY: the work area is part of a longer one that is lent to nobody else.
            unsafe { *work.as_mut_ptr().offset(place) ^= 1 }
        };
        let told = called(CALL, &sheet, beside).expect_err("a wrong planner");
        assert!(told.contains("beside"), "{told}");
    }
}
