//! Each clause of refusals 1, 3 and 4 (SPECIFICATION 4.1, 4.3, 4.4): a sheet just inside and
//! one just outside.

mod common;

use common::{FAR, alternative, block, bytes, element, labelled, rule, sheet, with};
use reader::read::{Parts, Rule, read};

fn number(sheet: &[u8]) -> u32 {
    read(sheet).err().unwrap_or(0)
}

/// The packed words of each kind with a payload that fits it.
const KINDS: [(u32, &[u32]); 8] = [
    (0, &[]),
    (1, &[0, 0]),
    (2, &[0, 0]),
    (3, &[1, 0, 0]),
    (4, &[1]),
    (5, &[]),
    (6, &[0]),
    (7, &[]),
];

#[test]
fn length() {
    let least = bytes(&[2, 0, 0, 0, 0, 0, 0, 0]);
    assert_eq!(number(&least), 0);
    for cut in 1..=32 {
        assert_eq!(number(&least[..32 - cut]), 1, "{} bytes", 32 - cut);
    }
    for more in 1..4 {
        let longer = [least.clone(), vec![0; more]].concat();
        assert_eq!(number(&longer), 1);
    }
    let ids = |n: u32| (0..n).collect::<Vec<u32>>();
    assert_eq!(sheet(&[], &ids(8184), FAR).len(), 32_768);
    assert_eq!(number(&sheet(&[], &ids(8184), FAR)), 0);
    assert_eq!(number(&sheet(&[], &ids(8185), FAR)), 1);
}

#[test]
fn trailer() {
    let of = |t: [u32; 3]| number(&bytes(&[7, t[0], t[1], t[2], 0, 0, 0, 0, 0]));
    assert_eq!(of([1, 1, 1]), 0);
    assert_eq!(of([3, 1, 1]), 0);
    for bad in [[0, 1, 1], [4, 1, 1], [257, 1, 1], [2, 0, 0], [2, 2, 1]] {
        assert_eq!(of(bad), 3, "{bad:?}");
    }
    for bad in [[2, 1, 2], [2, 1, u32::MAX], [2, u32::MAX, 1]] {
        assert_eq!(of(bad), 3, "{bad:?}");
    }
}

#[test]
fn parts() {
    let e = rule(9, 5, &[alternative(3, &[element(4, 5, &[])])]);
    let a = rule(8, 6, &[]);
    let read = read(&sheet(&[e, a], &[2, 7], [4, 5, 0, 0, 9]));
    let rules = [(9, 5, 0), (8, 6, 15)];
    let rules = rules.map(|(id, name, place)| Rule { id, name, place });
    let expected = Parts {
        kind: 2,
        preserved_at: 19,
        preserved: 2,
        counters: [4, 5, 0, 0, 9],
        rules: rules.to_vec(),
        alternatives: 1,
        elements: 1,
    };
    assert_eq!(read, Ok(expected));
}

#[test]
fn cut_short() {
    let whole = rule(1, 1, &[alternative(0, &[element(0, 3, &[1, 0, 0])])]);
    assert_eq!(number(&sheet(std::slice::from_ref(&whole), &[], FAR)), 0);
    for end in 1..whole.len() {
        let cut = whole[..end].to_vec();
        assert_eq!(number(&sheet(&[cut], &[], FAR)), 4, "{end} words");
    }
    let over = [whole, vec![0]].concat();
    assert_eq!(number(&sheet(&[over], &[], FAR)), 4);
}

#[test]
fn into_the_preserved_list() {
    // the same words, the last ones first in the rule and then in the list
    let words = [1, 1, 0, 0, 5, 6];
    let of = |list: u32| number(&bytes(&[&words[..], &[2, 6, list, 0, 0, 0, 0, 0]].concat()));
    assert_eq!(of(2), 0);
    assert_eq!(of(1), 4);
    assert_eq!(of(3), 4);
}

#[test]
fn counts() {
    for count in [1, 2, u32::MAX] {
        assert_eq!(number(&sheet(&[vec![1, 1, 0, count]], &[], FAR)), 4);
        for place in [3, 4] {
            let mut one = alternative(0, &[]);
            one[place] = count;
            assert_eq!(number(&sheet(&[rule(1, 1, &[one])], &[], FAR)), 4);
        }
        let mut options = element(0, 5, &[]);
        options[5] = count;
        assert_eq!(number(&with(&[options])), 4);
        assert_eq!(number(&with(&[element(0, 1, &[0, count])])), 4);
        assert_eq!(number(&with(&[element(0, 2, &[0, count])])), 4);
        assert_eq!(number(&with(&[element(0, 6, &[count])])), 4);
    }
}

#[test]
fn flags() {
    let flags = |f: u32| number(&sheet(&[vec![1, 1, f, 0]], &[], FAR));
    assert_eq!([0, 1, 2, 3, 4, u32::MAX].map(flags), [0, 0, 0, 0, 4, 4]);
    let flag = |f: u32| {
        let one = vec![0, 0, f, 0, 0];
        number(&sheet(&[rule(1, 1, &[one])], &[], FAR))
    };
    assert_eq!([0, 1, 2, 256].map(flag), [0, 0, 4, 4]);
}

#[test]
fn kinds_and_quantifiers() {
    for (kind, payload) in KINDS {
        for quantifier in 0..9 {
            let packed = kind + 256 * quantifier;
            let expected = if quantifier < 7 { 0 } else { 4 };
            let got = number(&with(&[element(0, packed, payload)]));
            assert_eq!(got, expected, "kind {kind} quantifier {quantifier}");
        }
    }
    for packed in [
        8,
        255,
        256 + 8,
        6 * 256 + 8,
        7 * 256 + 7,
        1792,
        65_536,
        65_536 + 4,
        1 << 24,
    ] {
        assert_eq!(number(&with(&[element(0, packed, &[])])), 4, "{packed}");
    }
}

#[test]
fn names() {
    let named: [&dyn Fn(u32) -> Vec<u8>; 7] = [
        &|n| sheet(&[rule(1, n, &[])], &[], FAR),
        &|n| sheet(&[rule(1, 1, &[vec![0, 0, 0, 1, 0, n, 0]])], &[], FAR),
        &|n| with(&[vec![0, 0, 5, 0, 0, 1, n, 0]]),
        &|n| with(&[element(0, 3, &[n, 0, 0])]),
        &|n| with(&[element(0, 4, &[n])]),
        &|n| with(&[element(0, 1, &[0, 1, 0, n])]),
        &|n| with(&[element(0, 2, &[0, 1, 0, n])]),
    ];
    for (which, make) in named.iter().enumerate() {
        let got = [0, 1, 65_535, 65_536, u32::MAX].map(|n| number(&make(n)));
        assert_eq!(got, [4, 0, 0, 0, 0], "name {which}");
    }
}

#[test]
fn labels() {
    let of = |id: u32, name: u32| number(&with(&[labelled(0, 5, [id, name], &[])]));
    assert_eq!(of(0, 0), 0);
    assert_eq!(of(0, 1), 0);
    assert_eq!(of(999, 65_536), 0);
    assert_eq!(of(999, u32::MAX), 0);
    assert_eq!(of(1, 0), 4);
    assert_eq!(of(u32::MAX, 0), 4);
}

#[test]
fn references() {
    for kind in [1, 2] {
        let of = |r: u32| number(&with(&[element(0, kind, &[0, 1, r, 1])]));
        assert_eq!([0, 1, 2, 3, 256].map(of), [0, 0, 0, 4, 4]);
    }
}

#[test]
fn free_words() {
    let all = u32::MAX;
    let option = vec![0, all, 5, 0, 0, 1, 1, all];
    let call = vec![1, all, 3, 0, 0, 0, 1, all, all];
    let one = vec![0, all, 0, 1, 2, 1, all];
    let one = [one, option, call].concat();
    assert_eq!(number(&sheet(&[rule(all, 1, &[one])], &[all], FAR)), 0);
}

/// `depth` blocks, one in the other; the innermost has no alternatives.
fn nested(depth: u32) -> Vec<u8> {
    let mut inner = block(0, &[]);
    for id in 1..depth {
        inner = block(id, &[alternative(id, &[inner])]);
    }
    with(&[inner])
}

#[test]
fn depth() {
    for d in 1..=8 {
        assert_eq!(number(&nested(d)), 0, "depth {d}");
    }
    assert_eq!(number(&nested(9)), 4);
    assert_eq!(number(&nested(10)), 4);
}

#[test]
fn rules() {
    let of = |n: u32| {
        let rules: Vec<Vec<u32>> = (0..n).map(|i| rule(i, i + 1, &[])).collect();
        number(&sheet(&rules, &[], FAR))
    };
    assert_eq!(of(128), 0);
    assert_eq!(of(129), 4);
}

#[test]
fn preserved() {
    let of = |ids: &[u32]| number(&sheet(&[], ids, FAR));
    assert_eq!(of(&[0, 1, u32::MAX]), 0);
    assert_eq!(of(&[7]), 0);
    assert_eq!(of(&[1, 1]), 4);
    assert_eq!(of(&[2, 1]), 4);
    assert_eq!(of(&[1, 3, 2]), 4);
}
