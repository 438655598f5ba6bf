//! Cycles that the pass can join, as long as no twist stops it.

use super::draft::{alternative, call, rule, symbol};
use crate::rng::Rng;
use crate::tree::{Alternative, Element, Kind, Rule};

/// A grammar under construction: rules, preserved names, who is in a cycle.
pub struct Draft {
    pub rules: Vec<Rule>,
    pub preserved: Vec<u32>,
    /// Names of the members of each cycle, the intended hub first.
    pub cycles: Vec<Vec<u32>>,
}

impl Draft {
    pub fn new() -> Self {
        Draft {
            rules: Vec::new(),
            preserved: Vec::new(),
            cycles: Vec::new(),
        }
    }

    pub fn free_name(&self) -> u32 {
        1 + self.rules.len() as u32
    }

    pub fn rule_mut(&mut self, name: u32) -> &mut Rule {
        let found = self.rules.iter_mut().find(|rule| rule.name == name);
        found.expect("drafts keep their rules")
    }

    pub fn some_cycle(&self, rng: &mut Rng) -> Vec<u32> {
        rng.pick(&self.cycles).clone()
    }

    pub fn some_member(&self, rng: &mut Rng) -> u32 {
        let members = self.some_cycle(rng);
        *rng.pick(&members)
    }

    pub fn some_satellite(&self, rng: &mut Rng) -> u32 {
        let members = self.some_cycle(rng);
        *rng.pick(&members[1..])
    }

    pub fn hub(&self, rng: &mut Rng) -> u32 {
        self.some_cycle(rng)[0]
    }

    /// An alternative of a rule; rules without one get one.
    pub fn some_alternative(&mut self, name: u32, rng: &mut Rng) -> &mut Alternative {
        let rule = self.rule_mut(name);
        if rule.alternatives.is_empty() {
            rule.alternatives.push(alternative(Vec::new()));
        }
        let place = rng.below(rule.alternatives.len());
        &mut rule.alternatives[place]
    }

    /// The alternatives of `name` that start with a call, as places.
    pub fn corners(&mut self, name: u32) -> Vec<usize> {
        let starts = |alternative: &Alternative| {
            matches!(
                alternative.elements.first(),
                Some(Element {
                    kind: Kind::Call { .. },
                    ..
                })
            )
        };
        let alternatives = self.rule_mut(name).alternatives.iter().enumerate();
        alternatives
            .filter(|(_, one)| starts(one))
            .map(|(place, _)| place)
            .collect()
    }
}

/// Adds a cycle of `size` rules. Satellites call only later ones and the hub,
/// so that substitution ends.
pub fn add_cycle(draft: &mut Draft, size: usize, rng: &mut Rng) {
    let hub = draft.free_name();
    let members: Vec<u32> = (0..size as u32).map(|place| hub + place).collect();
    for place in 0..size {
        let next = members.get(place + 1).copied().unwrap_or(hub);
        let mut alternatives = vec![alternative(with_tail(call(next), place > 0, rng))];
        if place > 0 && rng.one_in(3) {
            let target = *rng.pick(&members[place..]);
            let target = if target == members[place] {
                hub
            } else {
                target
            };
            alternatives.push(alternative(with_tail(call(target), true, rng)));
        }
        if place == 0 || rng.one_in(4) {
            alternatives.push(alternative(with_tail(symbol(rng), false, rng)));
        }
        rng.shuffle(&mut alternatives);
        draft.rules.push(rule(members[place], alternatives));
    }
    draft.cycles.push(members);
}

/// `first` and what follows it; a recursive alternative needs something to consume.
fn with_tail(first: Element, consuming: bool, rng: &mut Rng) -> Vec<Element> {
    let mut elements = vec![first];
    let least = usize::from(consuming);
    for _ in 0..rng.between(least, least + 1) {
        elements.push(symbol(rng));
    }
    elements
}
