//! The original's planner alone, asked about each cycle of a grammar as it stands.

use std::collections::BTreeSet;
use std::panic::{AssertUnwindSafe, catch_unwind};

use sheets::tree::{OptionDecl, Sheet};

use crate::grammar::mutual_recursion::{Planner, planners};
use crate::{Limits, hooks, load, quietly, refusal};

/// An alternative of a planned list, by the ids of what it is made of.
#[derive(Clone, Debug, Eq, PartialEq)]
pub struct Planned {
    /// The hub's alternative whose slot it fills.
    pub label_from: u32,
    pub origin: u32,
    pub verbatim: bool,
    pub options: Vec<OptionDecl>,
    /// Of each outermost element the id and the quantifier.
    pub elements: Vec<(u32, u32)>,
}

#[derive(Clone, Debug, Eq, PartialEq)]
pub struct Plan {
    pub hub: u32,
    pub steps: usize,
    pub alternatives: Vec<Planned>,
    pub removable: BTreeSet<u32>,
}

/// What the planner makes of a cycle.
#[derive(Clone, Debug, Eq, PartialEq)]
pub enum Decision {
    Planned(Plan),
    /// The clause (SPECIFICATION 10).
    Declined(u32),
    /// Refusal 7, with the sizes of the list: alternatives, elements, options.
    Overfull([usize; 3]),
}

/// The cycles of a grammar of any kind, each with its decision.
pub fn plans(sheet: &Sheet, limits: Limits) -> Vec<(Vec<u32>, Decision)> {
    let mut found = Vec::new();
    planners(&load::load(sheet), &mut |planner| {
        hooks::begin(sheet, limits);
        found.push((planner.cycle(), decision(planner)));
    });
    found
}

fn decision(planner: &Planner) -> Decision {
    let outcome = quietly(|| catch_unwind(AssertUnwindSafe(|| planner.plan())));
    let (steps, sizes) = (hooks::steps(), hooks::sizes());
    let declined = hooks::end().declined;
    match outcome.map_err(refusal) {
        Ok(Some(plan)) => Decision::Planned(Plan { steps, ..plan }),
        Ok(None) => Decision::Declined(declined[0].clause),
        Err(7) => Decision::Overfull(sizes),
        Err(number) => panic!("a plan cannot meet refusal {number}"),
    }
}

/// Hands over, for each cycle, a call that plans it and no more, to be made as often as one likes.
pub fn planning(sheet: &Sheet, limits: Limits, see: &mut dyn FnMut(&mut dyn FnMut())) {
    planners(&load::load(sheet), &mut |planner| {
        see(&mut || {
            hooks::begin(sheet, limits);
            let _ = quietly(|| catch_unwind(AssertUnwindSafe(|| planner.plans())));
        });
    });
}
