//! Left corners and cycles, in the two readings.

use std::collections::{BTreeMap, BTreeSet};

use sheets::tree::{Alternative, Element, Kind, Sheet};

use crate::strings::{EMPTY_STRING, Languages, Symbol, can_be_empty, symbol};

#[derive(Clone, Copy, Debug, Eq, Ord, PartialEq, PartialOrd)]
pub enum Reading {
    /// SPECIFICATION 13.11: past everything that can be empty.
    Textbook,
    /// The original: never past a symbol, whatever its quantifier. No reading ends at the end of input.
    Original,
}

/// A grammar and what its rules derive.
#[derive(Clone, Copy)]
pub struct Grammar<'a> {
    pub sheet: &'a Sheet,
    pub languages: &'a Languages,
    /// Without end marks.
    pub bare: &'a Languages,
}

impl Grammar<'_> {
    pub fn is_empty(&self, elements: &[Element]) -> bool {
        can_be_empty(elements, self.bare)
    }

    /// Whether the rule of this name derives a string of end marks alone.
    pub fn rule_can_be_empty(&self, name: u32) -> bool {
        self.bare[&name] & EMPTY_STRING != 0
    }

    /// Ids of the rules that are left corners of an alternative.
    pub fn corners(&self, alternative: &Alternative, reading: Reading) -> BTreeSet<u32> {
        let mut found = BTreeSet::new();
        self.collect(&alternative.elements, reading, &mut found);
        found
    }

    fn collect(&self, elements: &[Element], reading: Reading, found: &mut BTreeSet<u32>) {
        for element in elements {
            match &element.kind {
                Kind::Call { name, .. } => {
                    let rule = self.sheet.rules.iter().find(|rule| rule.name == *name);
                    found.extend(rule.map(|rule| rule.id));
                }
                Kind::Block(inner) => {
                    for alternative in inner {
                        self.collect(&alternative.elements, reading, found);
                    }
                }
                _ => {}
            }
            let symbol = symbol(element, self.sheet).filter(|found| *found != Symbol::End);
            let stops = reading == Reading::Original && symbol.is_some();
            if stops || !self.is_empty(std::slice::from_ref(element)) {
                return;
            }
        }
    }

    /// The cycles (SPECIFICATION 6.7), by least id.
    pub fn cycles(&self, reading: Reading) -> Vec<Vec<u32>> {
        let reach = self.reach(reading);
        let mut cycles: Vec<Vec<u32>> = Vec::new();
        for (rule, reached) in &reach {
            let mutual = reached.iter().filter(|other| reach[other].contains(rule));
            let mut members: Vec<u32> = mutual.copied().collect();
            if !members.contains(rule) {
                members.push(*rule);
            }
            members.sort_unstable();
            if members.len() > 1 && !cycles.contains(&members) {
                cycles.push(members);
            }
        }
        cycles.sort();
        cycles
    }

    /// Rules reached from each rule by one or more left corners.
    pub fn reach(&self, reading: Reading) -> BTreeMap<u32, BTreeSet<u32>> {
        let direct = |rule: &sheets::tree::Rule| {
            let all = rule
                .alternatives
                .iter()
                .flat_map(|one| self.corners(one, reading));
            (rule.id, all.collect::<BTreeSet<u32>>())
        };
        let mut reach: BTreeMap<_, _> = self.sheet.rules.iter().map(direct).collect();
        loop {
            let before = reach.clone();
            for reached in reach.values_mut() {
                let further: Vec<u32> = reached
                    .iter()
                    .flat_map(|rule| &before[rule])
                    .copied()
                    .collect();
                reached.extend(further);
            }
            if reach == before {
                return reach;
            }
        }
    }
}
