//! Each part of a refusal's text is so: beside it stands a sheet that is refused for it, and one that is not.

mod common;

use common::{
    FAR, alternative, bytes, check, covers, element, nested, paragraphs, rule, sheet, token, with,
};
use mutual_recursion::{Buffers, Reading, Refusal, join_in, lent};

fn rules(count: u32) -> Vec<u8> {
    let all: Vec<Vec<u32>> = (1..=count).map(|id| rule(id, id, &[])).collect();
    sheet(&all, &[], FAR)
}

fn trailer(kind: u32, first: u32, second: u32) -> Vec<u8> {
    bytes(&[kind, first, second, 0, 0, 0, 0, 0])
}

#[test]
fn lengths() {
    let empty = || trailer(2, 0, 0);
    // alternatives without elements up to the last word
    let full = |count: u32| {
        let all: Vec<Vec<u32>> = (0..count).map(|id| alternative(id, &[])).collect();
        sheet(&[rule(1, 1, &all)], &[], [5000; 5])
    };
    assert_eq!(full(1636).len(), 32_768);
    check(
        Refusal::BadLength,
        &[
            ("the sheet's length is", vec![]),
            ("under 32 bytes", vec![(empty()[4..].to_vec(), empty())]),
            (
                "over 32,768",
                vec![([&[0; 4], &full(1636)[..]].concat(), full(1636))],
            ),
            (
                "not a multiple of 4",
                vec![([&[0; 1], &empty()[..]].concat(), empty())],
            ),
        ],
    );
}

#[test]
fn buffers() {
    let sheet = trailer(2, 0, 0);
    let refusal = |lengths: [usize; 3]| {
        let [mut result, mut trail, mut work] = lengths.map(|length| vec![7; length]);
        let mut numbers = [9; 5];
        lent::pass(&sheet, &mut result, &mut trail, &mut work, &mut numbers);
        numbers[0]
    };
    assert_eq!(refusal([32_768, 65_536, 65_536]), 0);
    let short = Refusal::ShortBuffer;
    let parts = [
        ("a lent buffer is too short", [0, 0, 0]),
        ("the result under 32,768 bytes", [32_767, 65_536, 65_536]),
        ("the trail", [32_768, 65_535, 65_536]),
        ("the work area under 65,536", [32_768, 65_536, 65_535]),
    ];
    covers(&short.to_string(), &parts.map(|(part, _)| part));
    for (part, lengths) in parts {
        assert_eq!(refusal(lengths), short.number(), "{part}");
    }
}

#[test]
fn trailers() {
    let fine = || sheet(&[rule(1, 1, &[])], &[9], FAR);
    let other = |at: usize, word: u32| {
        let mut own = fine();
        let place = own.len() - 32 + 4 * at;
        own[place..place + 4].copy_from_slice(&word.to_le_bytes());
        own
    };
    check(
        Refusal::BadTrailer,
        &[
            ("the trailer is bad", vec![]),
            (
                "a unit kind other than 1, 2 and 3",
                vec![
                    (other(0, 0), other(0, 1)),
                    (other(0, 4), other(0, 2)),
                    (other(0, 4), other(0, 3)),
                ],
            ),
            (
                "a first distance that is not the number of words in front of the trailer",
                vec![(other(1, 4), fine()), (other(1, 6), fine())],
            ),
            (
                "a second distance above the first",
                vec![(trailer(2, 0, 1), trailer(2, 0, 0))],
            ),
        ],
    );
}

#[test]
fn records() {
    let one = |packed: u32| with(&[element(1, packed, [0, 0], &[])]);
    let named = |name: u32| sheet(&[rule(1, name, &[])], &[], FAR);
    let labelled = |id: u32, name: u32| with(&[element(1, 5, [id, name], &[])]);
    let flags = |word: u32| sheet(&[vec![1, 1, word, 0]], &[], FAR);
    let kept = |ids: &[u32]| sheet(&[rule(1, 1, &[])], ids, FAR);
    check(
        Refusal::BadRecord,
        &[
            ("a record is bad", vec![]),
            (
                "cut short",
                vec![(sheet(&[vec![1, 1, 0]], &[], FAR), flags(0))],
            ),
            (
                "running into the preserved list",
                vec![(sheet(&[vec![1, 1, 0]], &[2], FAR), kept(&[2]))],
            ),
            (
                "a value outside its list",
                vec![
                    (one(8), one(7)),
                    (one(0x705), one(0x605)),
                    (one(0x707), one(0x607)),
                    (flags(4), flags(3)),
                ],
            ),
            (
                "a name 0",
                vec![(named(0), named(1)), (named(0), named(u32::MAX))],
            ),
            (
                "a label id without a label name",
                vec![(labelled(1, 0), labelled(1, 1))],
            ),
            (
                "blocks over 8 deep",
                vec![(with(&[nested(9)]), with(&[nested(8)]))],
            ),
            ("over 128 rules", vec![(rules(129), rules(128))]),
            (
                "preserved ids that do not rise",
                vec![(kept(&[5, 5]), kept(&[5, 6]))],
            ),
        ],
    );
}

/// Two nodes of a sort with these ids, in a rule each: alternative, element, label, action, predicate.
fn two(sort: usize, ids: [u32; 2]) -> Vec<u8> {
    let [a, b] = ids;
    let pair = |node: fn(u32, u32) -> Vec<u32>| {
        let first = rule(1, 1, &[alternative(900, &[node(901, a)])]);
        sheet(
            &[first, rule(2, 2, &[alternative(902, &[node(903, b)])])],
            &[],
            FAR,
        )
    };
    match sort {
        0 => {
            let first = rule(1, 1, &[alternative(a, &[])]);
            sheet(&[first, rule(2, 2, &[alternative(b, &[])])], &[], FAR)
        }
        1 => pair(|_, own| token(own)),
        2 => pair(|id, own| element(id, 5, [own, 1], &[])),
        3 => pair(|id, own| element(id, 1, [0, 0], &[own, 0])),
        _ => pair(|id, own| element(id, 2, [0, 0], &[own, 0])),
    }
}

#[test]
fn shared_numbers() {
    let rules = |id: u32, name: u32| sheet(&[rule(1, 1, &[]), rule(id, name, &[])], &[], FAR);
    let sorts = |sort| vec![(two(sort, [3, 3]), two(sort, [3, 4]))];
    check(
        Refusal::SharedNumber,
        &[
            ("two rules share", vec![]),
            ("an id", vec![(rules(1, 2), rules(2, 2))]),
            ("a name", vec![(rules(2, 1), rules(2, 2))]),
            ("two alternatives", sorts(0)),
            ("elements", sorts(1)),
            ("labels", sorts(2)),
            ("actions", sorts(3)),
            ("predicates share an id", sorts(4)),
        ],
    );
}

#[test]
fn counters() {
    let sorts = |sort| vec![(two(sort, [3, 1000]), two(sort, [3, 999]))];
    check(
        Refusal::IdPastCounter,
        &[
            ("an id of an alternative", sorts(0)),
            ("element", sorts(1)),
            ("label", sorts(2)),
            ("action", sorts(3)),
            ("predicate is not below its counter", sorts(4)),
        ],
    );
}

#[test]
fn refusals_are_numbered_as_in_the_specification() {
    let section = paragraphs(4);
    for (refusal, number) in Refusal::ALL.into_iter().zip(1..) {
        assert_eq!(refusal.number(), number);
        assert_eq!(Refusal::of_number(number), Some(refusal));
        assert!(
            section[&number].starts_with(&format!("Refusal {number}")),
            "{}",
            section[&number]
        );
    }
    assert_eq!(
        section.keys().filter(|number| **number < 20).count(),
        Refusal::ALL.len()
    );
    assert_eq!(
        (Refusal::of_number(0), Refusal::of_number(10)),
        (None, None)
    );
}

/// The order that is promised of refusals: the lowest of the first six.
#[test]
fn the_lowest_refusal_is_given() {
    let mut buffers = Buffers::new();
    let mut all: Vec<u8> = trailer(4, 9, 9);
    assert_eq!(
        join_in(&mut buffers, &all, Reading::Original),
        Err(Refusal::BadTrailer)
    );
    all.push(0);
    assert_eq!(
        join_in(&mut buffers, &all, Reading::Original),
        Err(Refusal::BadLength)
    );
    // a bad record in front of two rules of one id
    let twice = sheet(
        &[rule(1, 1, &[]), rule(1, 2, &[]), vec![3, 3, 4, 0]],
        &[],
        FAR,
    );
    assert_eq!(
        join_in(&mut buffers, &twice, Reading::Original),
        Err(Refusal::BadRecord)
    );
    // that in front of an id past its counter
    let twice = sheet(
        &[rule(1, 1, &[alternative(1000, &[])]), rule(1, 2, &[])],
        &[],
        FAR,
    );
    assert_eq!(
        join_in(&mut buffers, &twice, Reading::Original),
        Err(Refusal::SharedNumber)
    );
}
