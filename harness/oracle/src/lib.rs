//! The outcome of a sheet (SPECIFICATION 3), with the original as the judge.
//!
//! Result words and origin lists are the unchanged original's. Plans, steps, the trail
//! and the declining clauses are the traced copy's, whose result must be the same.
//! Refusals 1 and 3 to 6 are the codec's, 7 and 9 are told at the copy's hooks
//! (SPECIFICATION 4.7, 4.9), 8 is the original's own panic.

pub mod book;
pub mod edges;
pub mod ends;
pub mod examples;
pub mod folded;
mod reasons;
pub mod text;
mod wide;
pub mod written;

use std::panic::{AssertUnwindSafe, catch_unwind};

use folded::{Folding, Reading};
use sheets::blocks::has_end_of_input;
use sheets::codec;
use sheets::tree::Sheet;
use sheets::walk::{self, Sort};
use traced::{Decline, Limits, Stage, Trace};

pub type Entry = [u32; 4];

/// A node and its origin list of reasons and owners.
#[derive(Clone, Debug, Eq, PartialEq)]
pub struct Origins {
    pub sort: Sort,
    pub id: u32,
    pub list: Vec<(u32, u32)>,
}

#[derive(Clone, Debug)]
pub struct Done {
    pub result: Sheet,
    pub trail: Vec<Entry>,
    /// Of every node that has one, by kind and id.
    pub origins: Vec<Origins>,
    pub stages: Vec<Stage>,
    pub declined: Vec<Decline>,
}

impl Done {
    pub fn plans(&self) -> usize {
        self.stages.len()
    }

    pub fn steps(&self) -> usize {
        self.stages.iter().map(|stage| stage.steps).sum()
    }

    pub fn words(&self) -> Vec<u32> {
        codec::encode(&self.result)
    }
}

/// The outcome, or the number of the refusal.
pub type Answer = Result<Done, u32>;

pub fn ask(bytes: &[u8]) -> Answer {
    ask_sheet(&codec::read(bytes)?)
}

/// For a sheet that passes 1 to 6.
pub fn ask_sheet(sheet: &Sheet) -> Answer {
    if has_end_of_input(sheet) {
        return ask_folded(sheet, Reading::Original);
    }
    let (outcome, trace) = ask_within(sheet, Limits::STANDARD);
    Ok(done(sheet, outcome?, trace))
}

/// The answer by the textbook's reading of left corners.
pub fn ask_by_textbook(bytes: &[u8]) -> Answer {
    ask_folded(&codec::read(bytes)?, Reading::Textbook)
}

fn ask_folded(sheet: &Sheet, reading: Reading) -> Answer {
    Folding::of(sheet, reading).run(sheet).map(|ran| ran.done())
}

/// What the original leaves of such a sheet without end of input, or the refusal by these limits; and the copy's trace, as
/// far as it came.
pub fn ask_within(sheet: &Sheet, limits: Limits) -> (Result<original::Answer, u32>, Trace) {
    let (traced, trace) = traced::trace(sheet, limits);
    if let Err(refusal @ (7 | 9)) = traced {
        return (Err(refusal), trace);
    }
    let outcome = match (traced, unchanged(sheet)) {
        (Ok(result), Some(unchanged)) => {
            assert_eq!(unchanged.result, result, "the original and its copy part");
            assert_eq!(unchanged.changed, !trace.stages.is_empty());
            Ok(unchanged)
        }
        (Err(8), None) => Err(8),
        _ => panic!("the original and its copy part"),
    };
    (outcome, trace)
}

fn done(sheet: &Sheet, unchanged: original::Answer, trace: Trace) -> Done {
    let mut nodes = walk::ids(sheet);
    nodes.extend(walk::ids(&unchanged.result));
    nodes.extend(trace.trail.iter().map(|entry| (sort(entry[0]), entry[1])));
    Done {
        origins: origins(&unchanged, nodes),
        result: unchanged.result,
        trail: trace.trail,
        stages: trace.stages,
        declined: trace.declined,
    }
}

/// The unchanged original's answer, or nothing where a counter overflows.
fn unchanged(sheet: &Sheet) -> Option<original::Answer> {
    let run = || catch_unwind(AssertUnwindSafe(|| original::run(sheet)));
    match traced::quietly(run) {
        Ok(answer) => Some(answer),
        Err(payload) if traced::counter_panic(&*payload) => None,
        Err(payload) => std::panic::resume_unwind(payload),
    }
}

/// The lists of those of these nodes that have one, by kind and id.
fn origins(unchanged: &original::Answer, mut nodes: Vec<(Sort, u32)>) -> Vec<Origins> {
    nodes.sort_unstable();
    nodes.dedup();
    let lists = nodes.into_iter().map(|(sort, id)| {
        let list = unchanged.origins(sort, id).into_iter();
        let list = list.map(|(reason, (owner_sort, owner))| {
            assert_eq!(owner_sort, sort, "owners are of the node's own kind");
            (reason, owner)
        });
        Origins {
            sort,
            id,
            list: list.collect(),
        }
    });
    lists.filter(|origins| !origins.list.is_empty()).collect()
}

fn sort(number: u32) -> Sort {
    let all = [
        Sort::Rule,
        Sort::Alternative,
        Sort::Element,
        Sort::Label,
        Sort::Action,
        Sort::Predicate,
    ];
    all[number as usize - 1]
}
