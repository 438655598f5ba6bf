//! The substitution (SPECIFICATION 8), step by step.

use std::collections::BTreeSet;

use notation::{Alternative, Element, Kind, OptionDecl, Rule};

use super::names::Named;
use super::{Cycle, Found, LEAST_BUDGET, is_silent};

/// SPECIFICATION 4.7.
const MOST: [usize; 3] = [1_024, 8_192, 2_048];

/// An alternative of the planned list; a call that a split made plain is no longer optional.
#[derive(Clone, Debug)]
pub(super) struct Planned {
    pub elements: Vec<Element>,
    options: Vec<OptionDecl>,
    slot: u32,
    origin: u32,
}

/// What an alternative needs (SPECIFICATION 8.2), with the place of the call.
enum Work<'a> {
    Split(usize, &'a Rule),
    Splice(usize, &'a Rule),
    Blocked(usize),
}

impl Planned {
    fn of(own: &Alternative) -> Planned {
        Planned {
            elements: own.elements.clone(),
            options: own.options.clone(),
            slot: own.id,
            origin: own.id,
        }
    }

    pub(super) fn found(&self, clause: u32, how: String) -> Found {
        Found {
            slot: Some(self.slot),
            origin: Some(self.origin).filter(|origin| *origin != self.slot),
            ..Found::of(clause, how)
        }
    }

    fn others(&self, place: usize) -> Vec<Element> {
        let mut others = self.elements.clone();
        others.remove(place);
        others
    }
}

impl<'a> Cycle<'a> {
    /// Nothing where the list grows past its limits, or where the cycle is not declined.
    pub(super) fn substituted(&self, hub: &'a Rule) -> Option<Found> {
        let all: usize = self
            .members
            .iter()
            .map(|rule| rule.alternatives.len())
            .sum();
        let budget = (all * all).max(LEAST_BUDGET);
        let mut list: Vec<Planned> = hub.alternatives.iter().map(Planned::of).collect();
        let (mut steps, mut done) = (0, 0);
        while done < list.len() {
            let Some(work) = self.work(&list[done], hub) else {
                done += 1;
                continue;
            };
            if steps == budget {
                return Some(self.beyond(hub, budget));
            }
            match self.step(&list[done], work) {
                Ok(made) => drop(list.splice(done..=done, made)),
                Err(found) => return Some(*found),
            }
            if is_past(&list) {
                return None;
            }
            steps += 1;
        }
        if steps == 0 {
            let how = format!(
                "no alternative of `{}` begins with a call that would be replaced",
                (self.name)(hub.name)
            );
            return Some(Found::of(10, how));
        }
        self.judged(hub, &list)
    }

    fn work(&self, own: &Planned, hub: &Rule) -> Option<Work<'a>> {
        let place = own
            .elements
            .iter()
            .position(|element| !is_silent(&element.kind))?;
        let element = &own.elements[place];
        let Kind::Call {
            name, arguments, ..
        } = element.kind
        else {
            return None;
        };
        let rule = self.member(name)?;
        let is_bare = element.label.is_none() && arguments == 0 && element.options.is_empty();
        match (is_bare, element.quantifier) {
            (true, 1) => Some(Work::Split(place, rule)),
            (_, 0) if rule.id == hub.id => None,
            (true, 0) => Some(Work::Splice(place, rule)),
            _ => Some(Work::Blocked(place)),
        }
    }

    fn step(&self, own: &Planned, work: Work) -> Result<Vec<Planned>, Box<Found>> {
        let (place, rule) = match work {
            Work::Blocked(place) => return Err(Box::new(self.blocked(own, place))),
            Work::Split(place, rule) | Work::Splice(place, rule) => (place, rule),
        };
        let others = Named::of(&own.others(place));
        if let Some(body) = others.body_with(rule.name) {
            let how = format!(
                "an action or predicate refers to `{}`, whose call beside it would be replaced",
                (self.name)(rule.name)
            );
            return Err(Box::new(own.found(5, how).at_element(body)));
        }
        if let Work::Split(..) = work {
            let mut with = own.clone();
            with.elements[place].quantifier = 0;
            let mut without = own.clone();
            without.elements.remove(place);
            return Ok(vec![with, without]);
        }
        let spliced = rule.alternatives.iter();
        spliced
            .map(|from| self.spliced(own, place, from, &others))
            .collect()
    }

    fn blocked(&self, own: &Planned, place: usize) -> Found {
        let element = &own.elements[place];
        let Kind::Call {
            name, arguments, ..
        } = element.kind
        else {
            unreachable!("a corner that is blocked is a call")
        };
        let has = match () {
            () if element.label.is_some() => "a label",
            () if arguments != 0 => "arguments",
            () if !element.options.is_empty() => "options",
            () => "a quantifier other than `?`",
        };
        let how = format!("the call of `{}` in front has {has}", (self.name)(name));
        own.found(6, how).at_element(element.id)
    }

    fn spliced(
        &self,
        own: &Planned,
        place: usize,
        from: &Alternative,
        others: &Named,
    ) -> Result<Planned, Box<Found>> {
        let inner = Named::of(&from.elements);
        let turned_back = |clause, what: &str, names: Vec<u32>| {
            let names: Vec<String> = names
                .iter()
                .map(|name| format!("`{}`", (self.name)(*name)))
                .collect();
            let mut found = own.found(clause, format!("{what} {}", names.join(", ")));
            found.origin = Some(from.id);
            Box::new(found.at_element(own.elements[place].id))
        };
        let labels = shared(&inner.labels, &others.labels);
        if !labels.is_empty() {
            return Err(turned_back(
                7,
                "both what is put in and what stands beside it have a label",
                labels,
            ));
        }
        let mut names = shared(&inner.referred, &others.bound);
        names.extend(shared(&others.referred, &inner.bound));
        if !names.is_empty() {
            return Err(turned_back(
                8,
                "an action or predicate would refer to another",
                names,
            ));
        }
        let mut options = own.options.clone();
        for option in &from.options {
            match options.iter().find(|other| other.name == option.name) {
                None => options.push(*option),
                Some(first) if first.value == option.value => {}
                Some(_) => {
                    return Err(turned_back(
                        9,
                        "two values are given to the option",
                        vec![option.name],
                    ));
                }
            }
        }
        let (front, behind) = (&own.elements[..place], &own.elements[place + 1..]);
        Ok(Planned {
            elements: [front, &from.elements, behind].concat(),
            options,
            slot: own.slot,
            origin: from.id,
        })
    }
}

fn shared(one: &BTreeSet<u32>, two: &BTreeSet<u32>) -> Vec<u32> {
    one.intersection(two).copied().collect()
}

fn is_past(list: &[Planned]) -> bool {
    let elements = list.iter().map(|own| own.elements.len()).sum();
    let options = list.iter().map(|own| own.options.len()).sum();
    let sizes: [usize; 3] = [list.len(), elements, options];
    sizes.iter().zip(MOST).any(|(size, most)| *size > most)
}
