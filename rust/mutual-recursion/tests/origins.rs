//! Where alternatives came from, on every stored sheet.

mod common;

use std::collections::HashMap;

use common::stored;
use mutual_recursion::{Reading, join, origins};
use notation::{Alternative, Sheet};

/// The outermost alternatives of a sheet by their ids, each with its rule's.
fn outermost(bytes: &[u8]) -> Vec<(u32, Alternative)> {
    let sheet = Sheet::of_bytes(bytes).expect("a sheet that is not refused");
    let rules = sheet.rules.into_iter();
    let all = rules.flat_map(|rule| rule.alternatives.into_iter().map(move |own| (rule.id, own)));
    all.collect()
}

#[test]
fn every_alternative_fills_a_slot() {
    let mut new = 0;
    for record in stored() {
        let name = &record.name;
        for reading in [Reading::Original, Reading::Textbook] {
            let Ok(joined) = join(&record.sheet, reading) else {
                assert!(origins(&record.sheet, reading).is_err(), "{name}");
                continue;
            };
            let before = outermost(&record.sheet);
            let carried: HashMap<u32, u32> = before
                .iter()
                .map(|(_, own)| (own.id, own.carried))
                .collect();
            let found = origins(&record.sheet, reading).expect("the sheet is not refused");
            let after = outermost(&joined.sheet);
            assert_eq!(found.len(), after.len(), "{name}");
            for (told, (rule, own)) in found.iter().zip(&after) {
                assert_eq!((told.rule, told.alternative), (*rule, own.id), "{name}");
                assert_eq!(carried.get(&told.slot), Some(&own.carried), "{name}");
                match told.origin {
                    Some(origin) => assert!(carried.contains_key(&origin), "{name}"),
                    None => assert_eq!(told.slot, own.id, "{name}"),
                }
                assert_eq!(
                    told.origin.is_some(),
                    !carried.contains_key(&own.id),
                    "{name}"
                );
                new += u32::from(told.origin.is_some());
            }
        }
    }
    assert!(new > 500, "{new} new alternatives");
}

/// Of a rule that is joined the slots are in the order in which its alternatives were handed in.
#[test]
fn slots_stand_in_their_order() {
    for record in stored() {
        let Ok(found) = origins(&record.sheet, Reading::Original) else {
            continue;
        };
        let places: HashMap<u32, usize> = (0..)
            .zip(outermost(&record.sheet))
            .map(|(at, (_, own))| (own.id, at))
            .collect();
        for pair in found.windows(2).filter(|pair| pair[0].rule == pair[1].rule) {
            assert!(
                places[&pair[0].slot] <= places[&pair[1].slot],
                "{}",
                record.name
            );
        }
    }
}
