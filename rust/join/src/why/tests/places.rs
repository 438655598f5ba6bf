//! The place that is told is the first at which the library turns back: the grammar is cut there, and the library asked again.

use std::cell::Cell;

use notation::{Alternative, Element, Kind};

use super::cases::{Case, ID, NAME, alternative, call, element, tried};
use super::found;

/// An alternative with which the hub begins with all others of the cycle, behind which nothing is substituted.
fn keeper(case: &Case) -> Alternative {
    let satellites = case.rules().filter(|rule| rule.id != case.hub().id);
    let calls = (ID..).zip(satellites);
    let calls = calls.map(|(id, rule)| alternative(id, vec![call(id, rule.name)]));
    let block = element(ID + 900, Kind::Block(calls.collect()));
    let token = element(ID + 901, Kind::Token(NAME));
    alternative(ID + 900, vec![block, token])
}

/// 5 to 9: with the hub's alternatives up to the one that is told the substitution is turned back so; with those in front of it
/// alone it is not turned back at all.
#[test]
fn the_slot_is_the_first_that_is_turned_back() {
    tried(&[5, 6, 7, 8, 9], 2_000, |case| {
        let (slot, hub) = (case.found.slot.expect("a slot"), case.hub());
        let place = hub.alternatives.iter().position(|own| own.id == slot);
        let place = place.expect("the slot is one of the hub's");
        let upto = |end: usize| [&hub.alternatives[..end], &[keeper(case)]].concat();
        let with = case.clause(case.with_hub(upto(place + 1))?)?;
        assert_eq!(with, case.found.clause, "{:?}", case.found);
        let without = case.clause(case.with_hub(upto(place))?)?;
        assert!([10, 11].contains(&without), "{without}: {:?}", case.found);
        Some(())
    });
}

/// 11: with the hub's alternatives in front of the one that is told, and some that can be rewritten, the cycle is joined; with the
/// one told too it is declined by 11. Where none is told, one of the sort that is not there is enough.
#[test]
fn the_slot_is_the_first_that_cannot_be_rewritten() {
    tried(&[11], 400, |case| {
        let hub = case.hub();
        let place = match case.found.slot {
            Some(slot) => hub.alternatives.iter().position(|own| own.id == slot),
            None => Some(hub.alternatives.len()),
        };
        let place = place.expect("the slot is one of the hub's");
        let upto = |end: usize| {
            let list = [&hub.alternatives[..end], &rewritable(case)].concat();
            case.clause(case.with_hub(list)?)
        };
        (upto(0)? == 0).then_some(())?;
        assert_eq!(upto(place)?, 0, "{:?}", case.found);
        if case.found.slot.is_some() {
            assert_eq!(upto(place + 1)?, 11, "{:?}", case.found);
        }
        Some(())
    });
}

/// Alternatives of both sorts, and for each satellite one that begins with it; that what is put in there can be rewritten is to be
/// asked.
fn rewritable(case: &Case) -> Vec<Alternative> {
    let behind = |id: u32, front: Vec<Element>| {
        let token = element(ID + 500 + id, Kind::Token(NAME));
        alternative(ID + id, [front, vec![token]].concat())
    };
    let calls = (1..).zip(case.rules());
    let calls = calls.map(|(id, rule)| behind(id, vec![call(ID + id, rule.name)]));
    calls.chain([behind(0, Vec::new())]).collect()
}

/// 11: with the cause that is told mended where it is told, nothing is said of it there any more; in many cycles nothing else is
/// in the way, and the library joins them.
#[test]
fn the_cause_is_one_of_four() {
    for what in [
        "pass arguments to",
        "nothing in it but",
        "in front can be empty",
        "of the cycle, behind",
    ] {
        let joined = Cell::new(0);
        tried(&[11], 50, |case| {
            case.found.how.contains(what).then_some(())?;
            let slot = case.found.slot.expect("a slot");
            let told = case.found.element;
            let mut sheet = case.sheet.clone();
            let token = |id| element(ID + 800 + id, Kind::Token(NAME));
            for own in sheet
                .rules
                .iter_mut()
                .flat_map(|rule| &mut rule.alternatives)
            {
                let place = own.elements.iter().position(|own| Some(own.id) == told);
                match (what, place) {
                    ("pass arguments to", Some(place)) => bare(&mut own.elements[place]),
                    ("of the cycle, behind", Some(place)) => {
                        own.elements.insert(place, token(own.id))
                    }
                    ("nothing in it but" | "in front can be empty", _) if own.id == slot => {
                        own.elements.push(token(0));
                    }
                    _ => {}
                }
            }
            let clause = case.clause(sheet.clone())?;
            joined.set(joined.get() + u32::from(clause == 0));
            assert_ne!(
                found(&sheet, &case.members, case.reading),
                Some(case.found.clone())
            );
            Some(())
        });
        assert!(joined.get() >= 20, "{what}: {}", joined.get());
    }
}

fn bare(own: &mut Element) {
    if let Kind::Call { arguments, .. } = &mut own.kind {
        *arguments = 0;
    }
}
