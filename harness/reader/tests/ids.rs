//! Refusals 5 and 6 (SPECIFICATION 4.5, 4.6), and which of two refusals is given (4.20).

mod common;

use common::{FAR, alternative, block, bytes, element, labelled, rule, sheet, with};
use reader::read::read;

fn number(sheet: &[u8]) -> u32 {
    read(sheet).err().unwrap_or(0)
}

/// Two rules; in the second one a block holds the node with the ids given, so that it lies in
/// another rule and deeper than its equal.
fn apart(here: &[Vec<u32>], there: &[Vec<u32>]) -> Vec<u8> {
    let inner = block(90, &[alternative(91, there)]);
    let first = rule(1, 1, &[alternative(92, here)]);
    let second = rule(2, 2, &[alternative(93, &[inner])]);
    sheet(&[first, second], &[], FAR)
}

#[test]
fn rules() {
    let of = |id: u32, name: u32| number(&sheet(&[rule(1, 1, &[]), rule(id, name, &[])], &[], FAR));
    assert_eq!(of(2, 2), 0);
    assert_eq!(of(1, 2), 5);
    assert_eq!(of(2, 1), 5);
}

#[test]
fn alternatives() {
    let of = |id: u32| {
        let inner = block(0, &[alternative(id, &[])]);
        number(&sheet(&[rule(1, 1, &[alternative(7, &[inner])])], &[], FAR))
    };
    assert_eq!(of(8), 0);
    assert_eq!(of(7), 5);
}

#[test]
fn elements() {
    let of = |id: u32| number(&apart(&[element(5, 5, &[])], &[element(id, 5, &[])]));
    assert_eq!(of(6), 0);
    assert_eq!(of(5), 5);
    assert_eq!(of(90), 5);
}

#[test]
fn labels() {
    let of = |id: u32, name: u32| {
        let here = labelled(5, 5, [0, 1], &[]);
        let there = labelled(6, 5, [id, name], &[]);
        number(&apart(&[here], &[there]))
    };
    assert_eq!(of(1, 1), 0);
    assert_eq!(of(0, 2), 5);
    // no label: its id word 0 is no label's id
    assert_eq!(of(0, 0), 0);
}

#[test]
fn actions_and_predicates() {
    let of = |kinds: [u32; 2], ids: [u32; 2]| {
        let here = element(5, kinds[0], &[ids[0], 0]);
        let there = element(6, kinds[1], &[ids[1], 0]);
        number(&apart(&[here], &[there]))
    };
    for kind in [1, 2] {
        assert_eq!(of([kind, kind], [3, 4]), 0);
        assert_eq!(of([kind, kind], [3, 3]), 5);
    }
    assert_eq!(of([1, 2], [3, 3]), 0);
}

#[test]
fn sorts_have_ids_of_their_own() {
    let one = labelled(4, 1, [4, 4], &[4, 0]);
    let two = element(5, 2, &[4, 0]);
    let of = sheet(&[rule(4, 4, &[alternative(4, &[one, two])])], &[4], FAR);
    assert_eq!(number(&of), 0);
}

/// A sheet whose one node of each sort has the id 7, in a block.
fn sevens(counters: [u32; 5]) -> u32 {
    let action = labelled(7, 1, [7, 1], &[7, 0]);
    let predicate = element(6, 2, &[7, 0]);
    let inner = block(5, &[alternative(7, &[action, predicate])]);
    number(&sheet(
        &[rule(9, 1, &[alternative(6, &[inner])])],
        &[],
        counters,
    ))
}

#[test]
fn counters() {
    assert_eq!(sevens([8; 5]), 0);
    for sort in 0..5 {
        let mut counters = [8; 5];
        counters[sort] = 7;
        assert_eq!(sevens(counters), 6, "sort {sort}");
        counters[sort] = 0;
        assert_eq!(sevens(counters), 6, "sort {sort}");
    }
}

#[test]
fn no_counter() {
    // rules and preserved ids have none, and an element without a label asks nothing of one
    let token = element(0, 4, &[1]);
    let one = rule(u32::MAX, 1, &[alternative(0, &[token])]);
    assert_eq!(number(&sheet(&[one], &[u32::MAX], [1, 1, 0, 0, 0])), 0);
    let last = rule(1, 1, &[alternative(u32::MAX - 1, &[])]);
    assert_eq!(
        number(&sheet(
            std::slice::from_ref(&last),
            &[],
            [u32::MAX, 0, 0, 0, 0]
        )),
        0
    );
    let last = rule(1, 1, &[alternative(u32::MAX, &[])]);
    assert_eq!(number(&sheet(&[last], &[], [u32::MAX, 0, 0, 0, 0])), 6);
}

#[test]
fn the_lowest_is_given() {
    // 3 before 4: a bad kind and a name of 0
    assert_eq!(number(&bytes(&[1, 0, 0, 0, 4, 4, 0, 0, 0, 0, 0, 0])), 3);
    // 4 before 5: two rules of one id, then a bad flag
    let twice = [rule(1, 1, &[]), rule(1, 2, &[]), vec![3, 3, 4, 0]];
    assert_eq!(number(&sheet(&twice, &[], FAR)), 4);
    // 4 before 5 and 6: falling preserved ids behind all rules
    let twice = [rule(1, 1, &[alternative(1000, &[])]), rule(1, 2, &[])];
    assert_eq!(number(&sheet(&twice, &[2, 1], FAR)), 4);
    // 5 before 6
    assert_eq!(number(&sheet(&twice, &[1, 2], FAR)), 5);
    // 4 before 6
    let mut bad = with(&[element(1000, 5, &[])]);
    assert_eq!(number(&bad), 6);
    bad[8] = 4;
    assert_eq!(number(&bad), 4);
}
