//! The original's model and provenance as the sheet and the trail number them.

use crate::grammar::model::*;
use crate::grammar::provenance::{Origin, SyntheticReason};
use sheets::tree;
use sheets::walk::Sort;

pub(crate) fn rules(unit: &GrammarUnit) -> Vec<tree::Rule> {
    unit.rules.iter().map(rule).collect()
}

fn rule(source: &Rule) -> tree::Rule {
    let stops_inlining = source.kind != RuleKind::Parser
        || source.returns.is_some()
        || source.locals.is_some()
        || !source.throws.is_empty()
        || !source.actions.is_empty()
        || !source.catches.is_empty()
        || source.finally_action.is_some()
        || !source.options.is_empty();
    tree::Rule {
        id: number(source.id.index()),
        name: word(&source.name),
        flags: u32::from(source.arguments.is_some()) + 2 * u32::from(stops_inlining),
        alternatives: alternatives(&source.block),
    }
}

fn alternatives(block: &Block) -> Vec<tree::Alternative> {
    block.alternatives.iter().map(alternative).collect()
}

fn alternative(source: &Alternative) -> tree::Alternative {
    tree::Alternative {
        id: number(source.id.index()),
        carried: source.syntax.0,
        labelled: source.label.is_some(),
        options: options(&source.options),
        elements: source.elements.iter().map(element).collect(),
    }
}

pub(crate) fn options(source: &[OptionDecl]) -> Vec<tree::OptionDecl> {
    let pair = |option: &OptionDecl| tree::OptionDecl {
        name: word(&option.name.value),
        value: word(&option.value.value),
    };
    source.iter().map(pair).collect()
}

fn element(source: &Element) -> tree::Element {
    let label = source.label.as_ref().map(|label| tree::Label {
        id: number(label.id.index()),
        name: word(&label.name),
    });
    tree::Element {
        id: number(source.id.index()),
        carried: source.syntax.0,
        quantifier: quantifier(source.quantifier),
        label,
        options: options(&source.options),
        kind: kind(&source.kind),
    }
}

fn kind(source: &ElementKind) -> tree::Kind {
    match source {
        ElementKind::Epsilon => tree::Kind::Epsilon,
        ElementKind::Action { id, body } => tree::Kind::Action(semantics(id.index(), [body])),
        ElementKind::Predicate { id, body, fail, .. } => {
            let bodies = [Some(body), fail.as_ref()].into_iter().flatten();
            tree::Kind::Predicate(semantics(id.index(), bodies))
        }
        ElementKind::RuleCall(call) => tree::Kind::Call {
            name: word(&call.name),
            arguments: call.arguments.as_deref().map_or(0, word),
            precedence: call.precedence.map_or(0, precedence_word),
        },
        ElementKind::Terminal(Terminal::Token(name)) => tree::Kind::Token(word(name)),
        ElementKind::Terminal(_) | ElementKind::Range(..) | ElementKind::Set { .. } => {
            tree::Kind::Other
        }
        ElementKind::Block(block) => tree::Kind::Block(alternatives(block)),
    }
}

fn semantics<'a>(id: usize, bodies: impl IntoIterator<Item = &'a String>) -> tree::Semantics {
    let words = bodies.into_iter().flat_map(|body| body.split_whitespace());
    let references = words.map(|found| {
        let (kind, name) = found.split_at(1);
        tree::Reference {
            kind: word(kind),
            name: word(name),
        }
    });
    tree::Semantics {
        id: number(id),
        references: references.collect(),
    }
}

pub(crate) fn quantifier(source: Quantifier) -> u32 {
    let (base, greedy) = match source {
        Quantifier::One => return 0,
        Quantifier::Optional { greedy } => (1, greedy),
        Quantifier::ZeroOrMore { greedy } => (3, greedy),
        Quantifier::OneOrMore { greedy } => (5, greedy),
    };
    base + u32::from(!greedy)
}

fn word(text: &str) -> u32 {
    text.parse().expect("texts are made from words")
}

/// The greatest precedence has no word, and no word loads as it.
fn precedence_word(precedence: u32) -> u32 {
    precedence
        .checked_add(1)
        .expect("precedences are made from words")
}

fn number(index: usize) -> u32 {
    u32::try_from(index).expect("ids are made from words")
}

/// The kind and id of a node as the trail has them.
pub(crate) fn sort_and_id(node: ModelNodeId) -> (Sort, u32) {
    let (sort, index) = match node {
        ModelNodeId::Rule(id) => (Sort::Rule, id.index()),
        ModelNodeId::Alternative(id) => (Sort::Alternative, id.index()),
        ModelNodeId::Element(id) => (Sort::Element, id.index()),
        ModelNodeId::Label(id) => (Sort::Label, id.index()),
        ModelNodeId::Action(id) => (Sort::Action, id.index()),
        ModelNodeId::Predicate(id) => (Sort::Predicate, id.index()),
        _ => panic!("the pass records no such node"),
    };
    (sort, number(index))
}

/// The reason and the owner of an origin that the pass records.
pub(crate) fn reason_and_owner(origin: &Origin) -> (u32, (Sort, u32)) {
    match origin {
        Origin::Synthetic {
            reason: SyntheticReason::RuleBoundary,
            owner,
        } => (1, sort_and_id(*owner)),
        Origin::Synthetic {
            reason: SyntheticReason::BlockBoundary,
            owner,
        } => (2, sort_and_id(*owner)),
        _ => panic!("the pass records no such origin"),
    }
}
