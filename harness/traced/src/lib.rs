//! The original with hooks inserted: plans, steps, the trail, the clause that
//! declined each cycle, and refusals 7 to 9 in the order in which they are met.

#[path = "../../original/src/counters.rs"]
mod counters;
mod hooks;
#[path = "../../original/src/load.rs"]
mod load;
#[path = "../../original/src/unload.rs"]
mod unload;

#[allow(dead_code)]
mod grammar {
    include!(concat!(env!("OUT_DIR"), "/grammar.rs"));
}

mod plans;
mod quiet;

use std::collections::{BTreeMap, BTreeSet};
use std::panic::{AssertUnwindSafe, catch_unwind};
use std::time::Instant;

use grammar::mutual_recursion::{
    self, eliminate_mutual_left_recursion_with_action_reference_parser,
};
use grammar::provenance::ProvenanceIndex;
use sheets::tree::Sheet;

pub use plans::{Decision, Plan, Planned, planning, plans};
pub use quiet::{counter_panic, quietly};

/// The copies with their insertions, by the names of the unchanged files.
pub const COPIES: [(&str, &str); 5] = [
    (
        "action.rs",
        include_str!(concat!(env!("OUT_DIR"), "/action.rs")),
    ),
    (
        "model.rs",
        include_str!(concat!(env!("OUT_DIR"), "/model.rs")),
    ),
    (
        "mutual_recursion.rs",
        include_str!(concat!(env!("OUT_DIR"), "/mutual_recursion.rs")),
    ),
    (
        "provenance.rs",
        include_str!(concat!(env!("OUT_DIR"), "/provenance.rs")),
    ),
    (
        "transform/analysis.rs",
        include_str!(concat!(env!("OUT_DIR"), "/analysis.rs")),
    ),
];

/// The numbers of SPECIFICATION 4.7 and 4.9.
#[derive(Clone, Copy, Debug)]
pub struct Limits {
    pub alternatives: usize,
    pub elements: usize,
    pub options: usize,
    pub bytes: usize,
    pub entries: usize,
}

impl Limits {
    pub const STANDARD: Limits = Limits {
        alternatives: 1_024,
        elements: 8_192,
        options: 2_048,
        bytes: 32_768,
        entries: 4_096,
    };
}

/// A cycle that was turned down, and the clause (SPECIFICATION 10) by which.
#[derive(Clone, Debug, Eq, PartialEq)]
pub struct Decline {
    pub clause: u32,
    pub cycle: Vec<u32>,
}

/// An applied plan and the grammar it leaves.
#[derive(Clone, Debug)]
pub struct Stage {
    pub cycle: Vec<u32>,
    pub hub: u32,
    pub steps: usize,
    pub after: Sheet,
}

#[derive(Clone, Debug, Default)]
pub struct Trace {
    pub stages: Vec<Stage>,
    pub trail: Vec<[u32; 4]>,
    /// Of the last round: the cycles that are still there.
    pub declined: Vec<Decline>,
    /// Of the last round, by `nullable_rules`.
    pub nullable: BTreeSet<u32>,
}

/// What the original's functions say of the rules of a grammar as it stands, by id.
#[derive(Clone, Debug, Default)]
pub struct Facts {
    pub nullable: BTreeSet<u32>,
    pub inlinable: BTreeSet<u32>,
    /// Of each rule the rules it calls, and its left corners.
    pub calls_and_corners: BTreeMap<u32, [BTreeSet<u32>; 2]>,
    pub cycles: Vec<Vec<u32>>,
}

/// For a unit of any kind.
pub fn facts(sheet: &Sheet) -> Facts {
    mutual_recursion::facts(&load::load(sheet).unit)
}

/// Thrown by a hook: the number of the refusal.
struct Stop(u32);

/// The trace of a whole run, or the refusal that ended it.
pub fn run(sheet: &Sheet, limits: Limits) -> Result<(Sheet, Trace), u32> {
    let (outcome, trace) = trace(sheet, limits);
    outcome.map(|result| (result, trace))
}

/// What a run left, or the refusal that ended it; and its trace, as far as it came.
pub fn trace(sheet: &Sheet, limits: Limits) -> (Result<Sheet, u32>, Trace) {
    hooks::begin(sheet, limits);
    let outcome = quietly(|| catch_unwind(AssertUnwindSafe(|| pass(sheet))));
    let trace = hooks::end();
    (outcome.map_err(refusal), trace)
}

fn pass(sheet: &Sheet) -> Sheet {
    let mut loaded = load::load(sheet);
    eliminate(&mut loaded);
    Sheet {
        kind: sheet.kind,
        rules: unload::rules(&loaded.unit),
        preserved: sheet.preserved.clone(),
        counters: counters::read(&loaded.ids),
    }
}

fn eliminate(loaded: &mut load::Loaded) {
    eliminate_mutual_left_recursion_with_action_reference_parser(
        std::slice::from_mut(&mut loaded.unit),
        &mut loaded.ids,
        &mut ProvenanceIndex::default(),
        &loaded.preserved,
        load::references,
    );
}

/// Microseconds for the pass alone, up to a refusal: of as many runs as `rounds`, each over a model loaded before.
pub fn times(sheet: &Sheet, limits: Limits, rounds: usize) -> Vec<f64> {
    let run = |_| {
        let mut loaded = load::load(sheet);
        hooks::begin(sheet, limits);
        let began = Instant::now();
        let outcome = quietly(|| catch_unwind(AssertUnwindSafe(|| eliminate(&mut loaded))));
        let took = began.elapsed();
        drop((hooks::end(), outcome));
        took.as_secs_f64() * 1e6
    };
    (0..rounds).map(run).collect()
}

fn refusal(payload: Box<dyn std::any::Any + Send>) -> u32 {
    if let Some(Stop(number)) = payload.downcast_ref() {
        return *number;
    }
    if counter_panic(&*payload) {
        return 8;
    }
    std::panic::resume_unwind(payload)
}
