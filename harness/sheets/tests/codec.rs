//! Sheets as words (SPECIFICATION 2): round trips, and the refusals (4) on both sides of each line.

use sheets::codec::{bytes_of, encode, read, tree};
use sheets::generate::{PROFILES, damaged};
use sheets::parse::sheet;
use sheets::tree::{Alternative, Element, Kind, Sheet};

fn refusal(words: &[u32]) -> Option<u32> {
    read(&bytes_of(words)).err()
}

/// The 69 words of case 1 (SPECIFICATION 15.20), record by record.
fn case_1() -> Vec<u32> {
    encode(&sheet("e: a | INT; a: e PLUS e;"))
}

fn edited(place: usize, value: u32) -> Option<u32> {
    let mut words = case_1();
    words[place] = value;
    refusal(&words)
}

/// SPECIFICATION 2.7 and 15.20.
#[test]
fn case_1_is_laid_out_as_the_specification_says() {
    let e = [1, 1, 0, 2];
    let call_a = [10, 0, 0, 0, 1, 20, 0, 3, 0, 0, 0, 2, 0, 0];
    let int = [11, 0, 0, 0, 1, 21, 0, 4, 0, 0, 0, 3];
    let a = [2, 2, 0, 1, 12, 0, 0, 0, 3];
    let sum = [
        22, 0, 3, 0, 0, 0, 1, 0, 0, 23, 0, 4, 0, 0, 0, 4, 24, 0, 3, 0, 0, 0, 1, 0, 0,
    ];
    let trailer = [2, 64, 0, 13, 25, 0, 0, 0];
    let words = [&e[..], &call_a, &int, &a, &sum, &trailer].concat();
    assert_eq!(words.len() * 4, 288);
    assert_eq!(case_1(), words);
}

#[test]
fn generated_sheets_are_read_as_they_were_written() {
    for profile in &PROFILES {
        for seed in 0..150 {
            let sheet = profile.sheet(seed);
            let found = read(&bytes_of(&encode(&sheet)));
            assert_eq!(found, Ok(sheet), "{} {seed}", profile.name);
        }
    }
}

/// What 5 or 6 refuses stands in its bytes as what is accepted does.
#[test]
fn trees_are_found_where_ids_are_not_asked() {
    let mut refused = [0; 7];
    for seed in 0..4_000 {
        let bytes = damaged(seed);
        let found = tree(&bytes);
        match read(&bytes) {
            Err(refusal @ (5 | 6)) => {
                let found = found.expect("a tree");
                assert_eq!(bytes_of(&encode(&found)), bytes, "damaged {seed}");
                refused[refusal as usize] += 1;
            }
            other => assert_eq!(found, other, "damaged {seed}"),
        }
    }
    assert!(refused[5] > 20 && refused[6] > 20, "{refused:?}");
}

#[test]
fn what_is_read_is_the_encoding_of_what_was_found() {
    let mut taken = 0;
    for seed in 0..4_000 {
        let bytes = damaged(seed);
        if let Ok(sheet) = read(&bytes) {
            assert_eq!(bytes_of(&encode(&sheet)), bytes, "damaged {seed}");
            taken += 1;
        }
    }
    assert!(taken > 200, "some faults leave a sheet: {taken}");
}

#[test]
fn damage_meets_every_refusal_of_reading() {
    let mut met = [0; 7];
    for seed in 0..2_000 {
        if let Err(refusal) = read(&damaged(seed)) {
            met[refusal as usize] += 1;
        }
    }
    assert_eq!((met[0], met[2]), (0, 0), "no such refusals of reading");
    assert!(
        [1, 3, 4, 5, 6].iter().all(|refusal| met[*refusal] > 50),
        "{met:?}"
    );
}

#[test]
fn lengths_are_refused_by_1() {
    assert_eq!(read(&[0; 28]), Err(1));
    assert_eq!(read(&[0; 33]), Err(1));
    assert_eq!(read(&vec![0; 32_772]), Err(1));
    assert_eq!(refusal(&[2, 0, 0, 0, 0, 0, 0, 0]), None);
}

#[test]
fn trailers_are_refused_by_3() {
    for (place, value) in [(64, 0), (64, 4), (65, 63), (65, 65), (66, 65)] {
        assert_eq!(edited(place, value), Some(3), "word {place} as {value}");
    }
}

#[test]
fn records_are_refused_by_4() {
    let label_id_alone = (12, 1);
    let faults = [(1, 0), (2, 4), (3, 3), (3, u32::MAX), (6, 2), (11, 8)];
    for (place, value) in faults
        .into_iter()
        .chain([(11, 3 + 256 * 7), label_id_alone, (66, 64)])
    {
        assert_eq!(edited(place, value), Some(4), "word {place} as {value}");
    }
    for name in [65_535, 65_536, u32::MAX] {
        assert_eq!(edited(1, name), None);
    }
}

#[test]
fn shared_ids_are_refused_by_5_and_counters_by_6() {
    // The other rule's id and name, an alternative's id, an element's id.
    for (place, value) in [(0, 2), (1, 2), (4, 12), (9, 24)] {
        assert_eq!(edited(place, value), Some(5), "word {place} as {value}");
    }
    assert_eq!(edited(67, 12), Some(6));
    assert_eq!(edited(68, 24), Some(6));
    // 5 is the lower number where both hold.
    let mut words = case_1();
    (words[4], words[67]) = (12, 12);
    assert_eq!(refusal(&words), Some(5));
}

/// SPECIFICATION 2.12.
#[test]
fn the_word_of_kind_and_quantifier_has_56_good_values() {
    let payload = |kind: u32| match kind {
        1 | 2 => vec![0, 0],
        3 => vec![1, 0, 0],
        4 => vec![1],
        6 => vec![0],
        _ => vec![],
    };
    let good = |packed: u32| {
        let mut words = vec![1, 1, 0, 1, 0, 0, 0, 0, 1, 0, 0, packed, 0, 0, 0];
        words.extend(payload(packed % 256));
        let trailer = [2, words.len() as u32, 0, 1, 1, 1, 1, 1];
        words.extend(trailer);
        refusal(&words).is_none()
    };
    let all: Vec<u32> = (0..4_096).filter(|packed| good(*packed)).collect();
    let quantifiers = 0..7;
    let listed: Vec<u32> = quantifiers
        .flat_map(|own| (0..8).map(move |kind| kind + 256 * own))
        .collect();
    assert_eq!(all, listed);
    assert_eq!(all.len(), 56);
    assert!(!good(65_536) && !good(1 << 24));
}

fn nested(depth: u32) -> Sheet {
    let mut inside = Vec::new();
    for id in 0..depth {
        let block = Element {
            id,
            ..Element::new(Kind::Block(inside))
        };
        inside = vec![Alternative {
            id,
            elements: vec![block],
            ..Alternative::default()
        }];
    }
    let mut sheet = sheet("e: X; %counters 99 99 0 0 0;");
    sheet.rules[0].alternatives = inside;
    sheet
}

#[test]
fn depth_and_rules_have_their_limits() {
    assert_eq!(refusal(&encode(&nested(8))), None);
    assert_eq!(refusal(&encode(&nested(9))), Some(4));
    let rules = |many: u32| {
        (1..=many)
            .map(|name| format!("r_{name}: -;"))
            .collect::<String>()
    };
    assert_eq!(refusal(&encode(&sheet(&rules(128)))), None);
    assert_eq!(refusal(&encode(&sheet(&rules(129)))), Some(4));
}

#[test]
fn preserved_ids_rise() {
    let mut sheet = sheet("e: X;");
    for (ids, expected) in [([3, 4], None), ([4, 4], Some(4)), ([4, 3], Some(4))] {
        sheet.preserved = ids.to_vec();
        assert_eq!(refusal(&encode(&sheet)), expected, "{ids:?}");
    }
}
