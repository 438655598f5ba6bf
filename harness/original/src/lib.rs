//! The unchanged original, asked by sheet.

mod counters;
mod grammar;
mod load;
mod unload;

use std::collections::BTreeSet;
use std::time::Instant;

use grammar::model::{
    ActionId, AlternativeId, ElementId, LabelId, ModelNodeId, PredicateId, RuleId,
};
use grammar::mutual_recursion::eliminate_mutual_left_recursion_with_action_reference_parser;
use grammar::provenance::ProvenanceIndex;
use sheets::tree::Sheet;
use sheets::walk::Sort;

/// What the original leaves: its unit as a sheet, and its provenance.
pub struct Answer {
    pub changed: bool,
    pub result: Sheet,
    provenance: ProvenanceIndex,
}

/// Panics where the original does.
pub fn run(sheet: &Sheet) -> Answer {
    run_loaded(load::load(sheet), sheet)
}

/// As `run`, every rule having a modifier and being case-insensitive: a sheet has
/// no word for either.
pub fn run_with_modifiers(sheet: &Sheet) -> Answer {
    let mut loaded = load::load(sheet);
    for rule in &mut loaded.unit.rules {
        rule.modifiers.push(load::authored(String::new()));
        rule.case_insensitive = Some(true);
    }
    run_loaded(loaded, sheet)
}

/// Microseconds for the pass alone: of as many runs as `rounds`, each over a model loaded before.
pub fn times(sheet: &Sheet, rounds: usize) -> Vec<f64> {
    let run = |_| {
        let mut loaded = load::load(sheet);
        let mut provenance = ProvenanceIndex::default();
        let began = Instant::now();
        eliminate(&mut loaded, &mut provenance);
        began.elapsed().as_secs_f64() * 1e6
    };
    (0..rounds).map(run).collect()
}

fn eliminate(loaded: &mut load::Loaded, provenance: &mut ProvenanceIndex) -> bool {
    eliminate_mutual_left_recursion_with_action_reference_parser(
        std::slice::from_mut(&mut loaded.unit),
        &mut loaded.ids,
        provenance,
        &loaded.preserved,
        load::references,
    )
}

fn run_loaded(mut loaded: load::Loaded, sheet: &Sheet) -> Answer {
    let mut provenance = ProvenanceIndex::default();
    let changed = eliminate(&mut loaded, &mut provenance);
    Answer {
        changed,
        result: unloaded(&loaded, sheet),
        provenance,
    }
}

/// The unit and counters as they are now, with what the pass never touches.
fn unloaded(loaded: &load::Loaded, sheet: &Sheet) -> Sheet {
    Sheet {
        kind: sheet.kind,
        rules: unload::rules(&loaded.unit),
        preserved: sheet.preserved.clone(),
        counters: counters::read(&loaded.ids),
    }
}

impl Answer {
    /// A node's origin list: reasons, and owners with their sort.
    pub fn origins(&self, sort: Sort, id: u32) -> Vec<(u32, (Sort, u32))> {
        let list = self.provenance.origins(node(sort, id));
        list.iter().map(unload::reason_and_owner).collect()
    }
}

fn node(sort: Sort, id: u32) -> ModelNodeId {
    match sort {
        Sort::Rule => ModelNodeId::Rule(RuleId::new(id)),
        Sort::Alternative => ModelNodeId::Alternative(AlternativeId::new(id)),
        Sort::Element => ModelNodeId::Element(ElementId::new(id)),
        Sort::Label => ModelNodeId::Label(LabelId::new(id)),
        Sort::Action => ModelNodeId::Action(ActionId::new(id)),
        Sort::Predicate => ModelNodeId::Predicate(PredicateId::new(id)),
    }
}

/// Ids of the rules that `transform/analysis.rs` finds nullable.
pub fn nullable_by_analysis(sheet: &Sheet) -> BTreeSet<u32> {
    let units = [load::load(sheet).unit];
    let analysis = grammar::analysis::TransformAnalysis::compute(&units);
    let nodes = analysis.nullable.into_iter().map(ModelNodeId::Rule);
    nodes.map(|node| unload::sort_and_id(node).1).collect()
}

/// A sheet through the original's model and back, the pass left out.
pub fn through_the_model(sheet: &Sheet) -> Sheet {
    unloaded(&load::load(sheet), sheet)
}
