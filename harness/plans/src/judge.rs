//! The original's decisions, in both readings of left corners.

use std::collections::HashMap;
use std::rc::Rc;

use analysis::facts::{Row, row};
use sheets::blocks::{ends_in_blocks, in_blocks};
use sheets::codec;
use sheets::tree::{Element, Kind, Sheet};
use sheets::walk;
use traced::{Decision, Limits};

use crate::places::Places;

/// A sheet that is not refused, in one reading.
#[derive(Clone, Debug)]
pub struct Judged {
    pub tree: Rc<Sheet>,
    pub words: Rc<[u32]>,
    pub places: Rc<Places>,
    /// The cycles in order: the members by the places of the rules, and what is decided.
    pub cycles: Rc<[(Row, Decision)]>,
}

/// By the original's reading, then by the textbook's; or the refusal.
pub fn judged(sheet: &[u8]) -> Result<[Judged; 2], u32> {
    let tree = Rc::new(codec::read(sheet)?);
    let places = Rc::new(Places::of(&tree));
    let original = Judged {
        words: codec::words_of(sheet).into(),
        cycles: decided(&tree, &places),
        tree,
        places,
    };
    let mut textbook = original.clone();
    if let Some(folded) = folded(&original.tree) {
        textbook.cycles = decided(&folded, &original.places);
    }
    Ok([original, textbook])
}

fn decided(sheet: &Sheet, places: &Places) -> Rc<[(Row, Decision)]> {
    let found = traced::plans(&ends_in_blocks(sheet), Limits::STANDARD).into_iter();
    let members = |cycle: Vec<u32>| row(cycle.into_iter().map(|id| places.rules[&id]));
    let ends = ends(sheet);
    found
        .map(|(cycle, decision)| (members(cycle), with_ends(decision, &ends)))
        .collect()
}

/// The quantifier of each element of kind 7, by id.
fn ends(sheet: &Sheet) -> HashMap<u32, u32> {
    let all = sheet.rules.iter().flat_map(walk::elements);
    all.filter(|own| own.is_end_of_input())
        .map(|own| (own.id, own.quantifier))
        .collect()
}

/// The decision with the quantifiers of kind 7, of which no plan changes one.
fn with_ends(decision: Decision, ends: &HashMap<u32, u32>) -> Decision {
    let Decision::Planned(mut plan) = decision else {
        return decision;
    };
    for (id, now) in plan
        .alternatives
        .iter_mut()
        .flat_map(|own| &mut own.elements)
    {
        *now = ends.get(id).copied().unwrap_or(*now);
    }
    Decision::Planned(plan)
}

/// The sheet with each symbol of quantifier 1 to 4 in a block of its own, if there is one. The original's left corners go
/// past such a block as the textbook's go past the symbol, and nothing else that the planner asks tells the two apart:
/// both settle a corner, both bind the same names, neither calls a rule. The block has the symbol's id and quantifier.
pub fn folded(sheet: &Sheet) -> Option<Sheet> {
    let names: Vec<u32> = sheet.rules.iter().map(|rule| rule.name).collect();
    let wanted = |own: &Element| own.may_be_absent() && is_symbol(own, &names);
    let mut all = sheet.rules.iter().flat_map(walk::elements);
    all.any(wanted).then(|| in_blocks(sheet, wanted))
}

/// A token, kind 5, an unknown call.
fn is_symbol(element: &Element, names: &[u32]) -> bool {
    match &element.kind {
        Kind::Token(_) | Kind::Other => true,
        Kind::Call { name, .. } => !names.contains(name),
        _ => false,
    }
}
