//! What is built is what it is called.

use pass::built::{self, Order, hardest};
use pass::outcome::{Outcome, judged, original};
use sheets::codec::{self, bytes_of, encode};
use sheets::tree::Sheet;
use sheets::walk::{Mark, marks};

fn outcome(tree: &Sheet) -> Outcome {
    let bytes = bytes_of(&encode(tree));
    assert_eq!(codec::read(&bytes).as_ref(), Ok(tree));
    let [outcome, _] = judged(&bytes).readings;
    outcome
}

#[test]
fn the_hardest_sheets_are_good_ones_with_the_outcome_in_their_names() {
    for (name, tree) in hardest() {
        let number = match name.split_once(" by ") {
            Some((number, _)) => number.parse().expect("a number"),
            None => 0,
        };
        assert_eq!(outcome(&tree).number(), number, "{name}");
        let bytes = 4 * encode(&tree).len();
        let full = name.contains("32 KB") || name.contains("the same");
        assert!(!full || 32_700 < bytes, "{name}: {bytes}");
    }
}

#[test]
fn rings_are_joined_in_as_many_plans() {
    for (rules, size) in [(30, 10), (128, 128), (128, 2)] {
        let outcome = original(&built::rings(rules, size, 4_096));
        assert_eq!(outcome.plans() as usize, rules / size);
        assert_eq!(outcome.numbers[2] as usize, rules / size * (size - 1));
    }
    assert_eq!(original(&built::downwards()).plans(), 0);
}

#[test]
fn cycles_are_declined_in_front_of_those_that_are_joined() {
    let tree = built::declined_and_joined(31, 32);
    let (outcome, trace) = oracle::ask_within(&tree, traced::Limits::STANDARD);
    assert!(outcome.is_ok());
    assert_eq!(trace.stages.len(), 32);
    let clauses: Vec<u32> = trace.declined.iter().map(|one| one.clause).collect();
    assert_eq!(clauses, [4; 31]);
}

#[test]
fn references_stand_in_their_order() {
    let names = |order| {
        let tree = built::references(order);
        let mut all = Vec::new();
        marks(&mut tree.clone(), &mut |mark, word| {
            if mark == Mark::Reference {
                all.push(*word);
            }
        });
        assert_eq!(original(&tree).plans(), 1);
        all
    };
    let mut rising = names(Order::Rising);
    assert!(rising.is_sorted_by(|one, next| one < next) && rising.len() == 4_000);
    let mut shuffled = names(Order::Shuffled);
    assert!(shuffled != rising);
    shuffled.sort_unstable();
    assert_eq!(shuffled, rising);
    rising.reverse();
    assert_eq!(names(Order::Falling), rising);
}

#[test]
fn a_result_is_full_to_the_byte() {
    let outcome = original(&built::full_result());
    assert_eq!((outcome.plans(), outcome.result.len()), (1, 32_768));
}
