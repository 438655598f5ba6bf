//! Where the alternatives of a result came from.

use std::collections::BTreeMap;

use mutual_recursion::{Entry, Kind, Reading, Reason, join};
use notation::{Alternative, Sheet, Sort};

/// For each alternative of a rule of the result the one handed in whose slot it fills, by their ids.
///
/// A new alternative has the carried number of its slot (SPECIFICATION 11.3), but those handed in may share one.
/// So the pass is run once more, with the id of each alternative as its carried number; since it compares carried
/// numbers with nothing (2.16), all else of the result is the same, and is held to be.
pub fn slots(before: &Sheet, after: &Sheet, reading: Reading) -> BTreeMap<u32, u32> {
    let mut marked = before.clone();
    let mut carried = BTreeMap::new();
    each(&mut marked, |own| {
        carried.insert(own.id, own.carried);
        own.carried = own.id;
    });
    let answer = join(&marked.bytes(), reading).expect("carried numbers are copied");
    let mut marked = Sheet::of_bytes(&answer.sheet).expect("the pass hands back a sheet");
    let mut slots = BTreeMap::new();
    each(&mut marked, |own| {
        slots.insert(own.id, own.carried);
        own.carried = carried[&own.carried];
    });
    assert_eq!(&marked, after, "carried numbers are copied");
    slots
}

fn each(sheet: &mut Sheet, see: impl FnMut(&mut Alternative)) {
    let rules = sheet.rules.iter_mut();
    rules.flat_map(|rule| &mut rule.alternatives).for_each(see);
}

/// For each new alternative of a rule the one from which it was taken last, by their ids (SPECIFICATION 8.9, 12.4).
pub fn origins(trail: &[Entry]) -> BTreeMap<u32, u32> {
    let taken = trail
        .iter()
        .filter(|entry| (entry.kind, entry.reason) == (Kind::Alternative, Reason::RuleBoundary));
    taken.map(|entry| (entry.id, entry.owner)).collect()
}

/// The ids of the rules that were joined, in the order of their plans (SPECIFICATION 12.5).
pub fn joined(trail: &[Entry]) -> Vec<u32> {
    let hubs = trail.iter().filter(|entry| entry.kind == Kind::Rule);
    hubs.map(|entry| entry.id).collect()
}

/// Copies of actions and predicates have the attributes of what was copied.
pub fn hand_on(attributes: &mut BTreeMap<(Sort, u32), Vec<String>>, trail: &[Entry]) {
    for entry in trail {
        let sort = match entry.kind {
            Kind::Action => Sort::Action,
            Kind::Predicate => Sort::Predicate,
            _ => continue,
        };
        if let Some(texts) = attributes.get(&(sort, entry.owner)).cloned() {
            attributes.insert((sort, entry.id), texts);
        }
    }
}
