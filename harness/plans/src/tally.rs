//! What a run met: how many cycles of which outcome, and how often what makes a plan hard.

use std::fmt;

use sheets::blocks::has_end_of_input;
use sheets::tree::{Kind, Rule};
use sheets::walk::{self, Node};
use traced::{Decision, Limits, Plan};

use crate::judge::Judged;

const CLAUSES: usize = 11;
const LIMITS: Limits = Limits::STANDARD;

/// Cycles, by what was decided.
#[derive(Clone, Copy, Debug, Default, PartialEq, Eq)]
pub struct Outcomes {
    pub planned: u64,
    /// The first is never met.
    pub declined: [u64; CLAUSES + 1],
    /// By more than one of the three where several limits are passed at once.
    pub overfull: u64,
    pub alternatives: u64,
    pub elements: u64,
    pub options: u64,
}

/// Plans, by what is in them.
#[derive(Clone, Copy, Debug, Default, PartialEq, Eq)]
pub struct Sorts {
    /// An element was made plain.
    pub split: u64,
    /// Options of a satellite were added.
    pub options: u64,
    /// Over 64 steps, or over 256 alternatives.
    pub long: u64,
    /// As many alternatives, elements or options as a list may have.
    pub full: u64,
    /// A hub that is not the member of least id.
    pub other_hub: u64,
    /// A satellite stays, with others gone or not.
    pub kept: u64,
}

#[derive(Clone, Debug, Default, PartialEq, Eq)]
pub struct Tally {
    /// Sheets by number, 0 for those accepted.
    pub answers: [u64; 7],
    /// In the original's reading, then in the textbook's.
    pub outcomes: [Outcomes; 2],
    /// In the original's reading.
    pub sorts: Sorts,
    /// Sheets whose decisions are not the same in both.
    pub parted: u64,
    /// Sheets with a cycle and a preserved rule; with a cycle and, in a block, a label or a reference.
    pub preserved: u64,
    pub nested: u64,
    /// Cycles of sheets with the end of input, in the original's reading.
    pub ends: Outcomes,
}

impl Tally {
    pub fn sheets(&self) -> u64 {
        self.answers.iter().sum()
    }

    pub fn add(&mut self, judged: &Result<[Judged; 2], u32>) {
        let readings = match judged {
            Ok(readings) => readings,
            Err(refusal) => {
                self.answers[*refusal as usize] += 1;
                return;
            }
        };
        self.answers[0] += 1;
        for (outcomes, reading) in self.outcomes.iter_mut().zip(readings) {
            for (_, decision) in reading.cycles.iter() {
                outcomes.add(decision);
            }
        }
        self.parted += u64::from(readings[0].cycles != readings[1].cycles);
        let Judged { tree, cycles, .. } = &readings[0];
        if has_end_of_input(tree) {
            let decisions = cycles.iter().map(|(_, decision)| decision);
            decisions.for_each(|decision| self.ends.add(decision));
        }
        if !cycles.is_empty() {
            let mut ids = tree.rules.iter().map(|rule| rule.id);
            let preserved = ids.any(|id| tree.preserved.contains(&id));
            self.preserved += u64::from(preserved);
            self.nested += u64::from(tree.rules.iter().any(binds_in_a_block));
        }
        for (cycle, decision) in readings[0].cycles.iter() {
            if let Decision::Planned(plan) = decision {
                self.sorts.add(plan, &readings[0], cycle);
            }
        }
    }
}

/// Whether a label or a reference stands in a block.
fn binds_in_a_block(rule: &Rule) -> bool {
    let mut found = false;
    walk::alternatives(&rule.alternatives, 0, &mut |node| {
        if let Node::Element(1.., own) = node {
            let refers = match &own.kind {
                Kind::Action(body) | Kind::Predicate(body) => !body.references.is_empty(),
                _ => false,
            };
            found |= own.label.is_some() || refers;
        }
    });
    found
}

impl Outcomes {
    fn add(&mut self, decision: &Decision) {
        match decision {
            Decision::Planned(_) => self.planned += 1,
            Decision::Declined(clause) => self.declined[*clause as usize] += 1,
            Decision::Overfull([alternatives, elements, options]) => {
                self.overfull += 1;
                self.alternatives += u64::from(LIMITS.alternatives < *alternatives);
                self.elements += u64::from(LIMITS.elements < *elements);
                self.options += u64::from(LIMITS.options < *options);
            }
        }
    }
}

impl Sorts {
    fn add(&mut self, plan: &Plan, judged: &Judged, cycle: &[u64; 2]) {
        let members = (cycle[0].count_ones() + cycle[1].count_ones()) as usize;
        let places = &judged.places;
        let plain = |(id, now): &(u32, u32)| places.elements[id].1 != *now;
        let ids = places.rules.iter();
        let in_cycle = |at: &usize| cycle[at / 64] >> (at % 64) & 1 == 1;
        let least = ids.filter(|(_, at)| in_cycle(at)).map(|(id, _)| *id).min();

        let all = &plan.alternatives;
        self.split += u64::from(all.iter().any(|own| own.elements.iter().any(plain)));
        self.options += u64::from(all.iter().any(|own| {
            let slot = places.alternatives[&own.label_from];
            judged.words[slot + 3] as usize != own.options.len()
        }));
        self.long += u64::from(64 < plan.steps || 256 < all.len());
        let elements = all.iter().map(|own| own.elements.len()).sum();
        let options = all.iter().map(|own| own.options.len()).sum();
        let limits = [LIMITS.alternatives, LIMITS.elements, LIMITS.options];
        let sizes: [usize; 3] = [all.len(), elements, options];
        self.full += u64::from(sizes.iter().zip(limits).any(|(size, most)| *size == most));
        self.other_hub += u64::from(least != Some(plan.hub));
        self.kept += u64::from(plan.removable.len() + 1 < members);
    }
}

impl fmt::Display for Outcomes {
    fn fmt(&self, out: &mut fmt::Formatter) -> fmt::Result {
        write!(out, "{} planned, declined", self.planned)?;
        for (clause, count) in self.declined.iter().enumerate().skip(1) {
            write!(out, " {clause}: {count}")?;
        }
        write!(out, ", overfull {}", self.overfull)
    }
}
