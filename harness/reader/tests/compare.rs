//! The comparison passes a reader that answers alike and stops at each kind of wrong one.

use reader::compare::{Disagreement, Lent, Reader, Tally, run};
use reader::numbers::numbers;
use reader::read::{Parts, read};

/// The second reader behind the proved one's boundary, its answer changed by `edit`.
fn answer(
    sheet: &[u8],
    work: &mut [u8],
    out: &mut [u32],
    edit: impl Fn(Result<Parts, u32>) -> Result<Parts, u32>,
) {
    let answer = edit(read(sheet));
    if answer != Err(1) {
        work.fill(0);
    }
    out.copy_from_slice(&numbers(&answer));
}

fn compared(reader: Reader) -> Result<Tally, Disagreement> {
    run(reader, 3, 2_000)
}

fn caught(edit: impl Fn(Result<Parts, u32>) -> Result<Parts, u32>) {
    let wrong = |s: &[u8], w: &mut [u8], n: &mut [u32]| answer(s, w, n, &edit);
    let differs = compared(&wrong).expect_err("a wrong reader");
    assert!(differs.what.starts_with("number "), "{}", differs.what);
}

#[test]
fn the_same_reader_agrees() {
    let same = |s: &[u8], w: &mut [u8], n: &mut [u32]| answer(s, w, n, |a| a);
    assert_eq!(compared(&same).expect("agreement").sheets(), 2_000);
}

#[test]
fn each_refusal_lost_is_caught() {
    for lost in [1, 3, 4, 5, 6] {
        caught(|a| match a {
            Err(n) if n == lost => Err(2),
            other => other,
        });
    }
}

#[test]
fn each_part_changed_is_caught() {
    let edits: [fn(&mut Parts); 9] = [
        |p| p.kind += 1,
        |p| p.preserved_at += 1,
        |p| p.preserved += 1,
        |p| p.counters[4] ^= 1,
        |p| p.alternatives += 1,
        |p| p.elements += 1,
        |p| p.rules.truncate(1),
        |p| p.rules.iter_mut().for_each(|r| r.place ^= 1),
        |p| p.rules.iter_mut().for_each(|r| r.name ^= 1),
    ];
    for edit in edits {
        caught(|a| {
            a.map(|mut parts| {
                edit(&mut parts);
                parts
            })
        });
    }
}

#[test]
fn a_dirty_work_area_is_caught() {
    let left = |s: &[u8], w: &mut [u8], n: &mut [u32]| {
        answer(s, w, n, |a| a);
        w[65_535] = 1;
    };
    let differs = compared(&left).expect_err("a byte left behind");
    assert!(differs.what.contains("work area"), "{}", differs.what);
}

#[test]
fn a_work_area_cleared_under_refusal_1_is_caught() {
    let cleared = |s: &[u8], w: &mut [u8], n: &mut [u32]| {
        answer(s, w, n, |a| a);
        w.fill(0);
    };
    assert!(Lent::new().one(&cleared, &[0; 31]).is_err());
    assert_eq!(Lent::new().one(&cleared, &[0; 32]), Ok(3));
}
