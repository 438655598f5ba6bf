//! What the inserted lines call. They write down; where refusal 7 or 9 is met
//! (SPECIFICATION 4) they end the run.

use std::cell::RefCell;
use std::collections::BTreeSet;

use crate::grammar::model::{GrammarUnit, ModelIdAllocator, ModelNodeId, RuleId};
use crate::grammar::provenance::Origin;
use crate::{Decline, Limits, Stage, Stop, Trace, counters, unload};
use sheets::codec;
use sheets::tree::Sheet;

/// A run under way.
pub(crate) struct Run {
    pub(crate) trace: Trace,
    limits: Limits,
    /// Of the sheet handed in: what the pass copies.
    kind: u32,
    preserved: Vec<u32>,
    clause: u32,
    cycle: Vec<u32>,
    plan: (u32, usize),
    /// Of the planned list after the last step: alternatives, elements, options.
    sizes: [usize; 3],
}

thread_local! {
    static RUN: RefCell<Option<Run>> = const { RefCell::new(None) };
}

pub(crate) fn begin(sheet: &Sheet, limits: Limits) {
    let run = Run {
        trace: Trace::default(),
        limits,
        kind: sheet.kind,
        preserved: sheet.preserved.clone(),
        clause: 0,
        cycle: Vec::new(),
        plan: (0, 0),
        sizes: [0; 3],
    };
    RUN.set(Some(run));
}

pub(crate) fn end() -> Trace {
    RUN.take().expect("a run is under way").trace
}

/// Of the last plan.
pub(crate) fn steps() -> usize {
    with(|run| run.plan.1)
}

pub(crate) fn sizes() -> [usize; 3] {
    with(|run| run.sizes)
}

fn with<T>(change: impl FnOnce(&mut Run) -> T) -> T {
    RUN.with_borrow_mut(|run| change(run.as_mut().expect("a run is under way")))
}

/// Unwinds to the caller of the pass, without a message.
fn stop(refusal: u32) -> ! {
    std::panic::resume_unwind(Box::new(Stop(refusal)))
}

fn id(rule: RuleId) -> u32 {
    unload::sort_and_id(ModelNodeId::Rule(rule)).1
}

/// All cycles are about to be found afresh.
pub(crate) fn round(nullable: &BTreeSet<RuleId>) {
    with(|run| {
        run.trace.declined.clear();
        run.trace.nullable = nullable.iter().map(|rule| id(*rule)).collect();
    });
}

/// Ends with the planner's answer on one cycle.
pub(crate) struct Planning;

pub(crate) fn cycle(members: &[RuleId]) -> Planning {
    with(|run| {
        run.cycle = members.iter().map(|rule| id(*rule)).collect();
        run.clause = 0;
    });
    Planning
}

impl Drop for Planning {
    fn drop(&mut self) {
        with(|run| {
            if run.clause != 0 {
                let cycle = run.cycle.clone();
                run.trace.declined.push(Decline {
                    clause: run.clause,
                    cycle,
                });
            }
        });
    }
}

pub(crate) fn testing(clause: u32) {
    with(|run| run.clause = clause);
}

/// Refusal 7, after each substitution step.
pub(crate) fn substituted(alternatives: impl Iterator<Item = (usize, usize)>) {
    let (mut count, mut elements, mut options) = (0, 0, 0);
    for (own_elements, own_options) in alternatives {
        count += 1;
        elements += own_elements;
        options += own_options;
    }
    let limits = with(|run| {
        run.sizes = [count, elements, options];
        run.limits
    });
    let fits =
        count <= limits.alternatives && elements <= limits.elements && options <= limits.options;
    if !fits {
        stop(7);
    }
}

pub(crate) fn planned(hub: RuleId, steps: usize) {
    with(|run| {
        run.clause = 0;
        run.plan = (id(hub), steps);
    });
}

/// Refusal 9, once a plan is applied; a counter's panic, 8, comes before it.
pub(crate) fn applied(unit: &GrammarUnit, ids: &ModelIdAllocator) {
    let fits = with(|run| {
        let after = Sheet {
            kind: run.kind,
            rules: unload::rules(unit),
            preserved: run.preserved.clone(),
            counters: counters::read(ids),
        };
        let bytes = 4 * codec::encode(&after).len();
        let (hub, steps) = run.plan;
        let cycle = run.cycle.clone();
        run.trace.stages.push(Stage {
            cycle,
            hub,
            steps,
            after,
        });
        bytes <= run.limits.bytes && run.trace.trail.len() <= run.limits.entries
    });
    if !fits {
        stop(9);
    }
}

pub(crate) fn recording(node: ModelNodeId) {
    let (sort, id) = unload::sort_and_id(node);
    with(|run| run.trace.trail.push([sort as u32, id, 0, 0]));
}

/// The last origin of a recording is its entry; those before it are its owner's.
pub(crate) fn origin(origin: &Origin) {
    let (reason, (sort, owner)) = unload::reason_and_owner(origin);
    with(|run| {
        let entry = run
            .trace
            .trail
            .last_mut()
            .expect("a recording is under way");
        assert_eq!(entry[0], sort as u32, "owners are of the node's own kind");
        entry[2] = reason;
        entry[3] = owner;
    });
}
