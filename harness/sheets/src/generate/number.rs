//! Ids, names, carried numbers and counters for a draft.

use std::collections::BTreeMap;

use super::draft::TOKENS;
use super::skeleton::Draft;
use crate::parse::least_counters;
use crate::rng::Rng;
use crate::tree::{Alternative, Element, Kind, Rule, Sheet};
use crate::walk;

/// How ids of one sort go on: one by one, or with gaps.
struct Ids {
    next: u32,
    gap: usize,
}

impl Ids {
    fn new(first: u32, rng: &mut Rng) -> Self {
        let gap = *rng.pick(&[1, 1, 1, 40]);
        Ids { next: first, gap }
    }

    fn hand_out(&mut self, rng: &mut Rng) -> u32 {
        let id = self.next;
        self.next += rng.between(1, self.gap) as u32;
        id
    }
}

struct Numbering<'a> {
    rng: &'a mut Rng,
    alternatives: Ids,
    elements: Ids,
    labels: Ids,
    actions: Ids,
    predicates: Ids,
    carry: bool,
}

pub fn number(mut draft: Draft, rng: &mut Rng) -> Sheet {
    if rng.one_in(3) {
        rng.shuffle(&mut draft.rules);
    }
    let ids = rule_ids(&draft.rules, rng);
    let preserved = draft
        .preserved
        .iter()
        .map(|name| ids.get(name).copied().unwrap_or(*name));
    let mut sheet = Sheet {
        kind: 2,
        preserved: preserved.collect(),
        ..Sheet::default()
    };
    sheet.preserved.sort_unstable();
    sheet.preserved.dedup();
    sheet.rules = draft.rules;
    for rule in &mut sheet.rules {
        rule.id = ids[&rule.name];
    }
    hand_out(&mut sheet.rules, rng);
    if rng.one_in(6) {
        rename(&mut sheet.rules, rng);
    }
    sheet.counters = least_counters(&sheet);
    if rng.one_in(3) {
        sheet.counters.alternative += rng.below(9) as u32;
        sheet.counters.element += rng.below(9) as u32;
        sheet.counters.label += rng.below(3) as u32;
    }
    sheet
}

/// Ids by name: the names themselves, or other ones in another order.
fn rule_ids(rules: &[Rule], rng: &mut Rng) -> BTreeMap<u32, u32> {
    let names: Vec<u32> = rules.iter().map(|rule| rule.name).collect();
    let mut ids = names.clone();
    if rng.one_in(2) {
        rng.shuffle(&mut ids);
    }
    let offset = *rng.pick(&[0, 0, 0, 70_000, 4_294_960_000]);
    names
        .into_iter()
        .zip(ids)
        .map(|(name, id)| (name, id + offset))
        .collect()
}

fn hand_out(rules: &mut [Rule], rng: &mut Rng) {
    let mut numbering = Numbering {
        alternatives: Ids::new(10, rng),
        elements: Ids::new(20, rng),
        labels: Ids::new(0, rng),
        actions: Ids::new(0, rng),
        predicates: Ids::new(0, rng),
        carry: rng.one_in(3),
        rng,
    };
    for rule in rules {
        numbering.alternatives(&mut rule.alternatives);
    }
}

impl Numbering<'_> {
    fn alternatives(&mut self, list: &mut [Alternative]) {
        for alternative in list {
            alternative.id = self.alternatives.hand_out(self.rng);
            if self.carry {
                alternative.carried = self.rng.below(100) as u32;
            }
            for element in &mut alternative.elements {
                self.element(element);
            }
        }
    }

    fn element(&mut self, element: &mut Element) {
        element.id = self.elements.hand_out(self.rng);
        if self.carry && element.kind != Kind::Other {
            element.carried = self.rng.below(100) as u32;
        }
        if let Some(label) = &mut element.label {
            label.id = self.labels.hand_out(self.rng);
        }
        match &mut element.kind {
            Kind::Action(body) => body.id = self.actions.hand_out(self.rng),
            Kind::Predicate(body) => body.id = self.predicates.hand_out(self.rng),
            Kind::Block(inner) => self.alternatives(inner),
            _ => {}
        }
    }
}

/// One token name becomes that of a rule or a label: names are one space.
fn rename(rules: &mut [Rule], rng: &mut Rng) {
    let from = TOKENS + rng.below(4) as u32;
    let to = *rng.pick(&[1, 2, 200, 65_535]);
    for rule in rules {
        walk::edit(&mut rule.alternatives, &mut |element| {
            if element.kind == Kind::Token(from) {
                element.kind = Kind::Token(to);
            }
        });
    }
}
