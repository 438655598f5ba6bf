//! Sheets as the original's model.
//!
//! Names become their decimal text, a carried number the syntax id, references
//! a body that only `references` below reads. Where several forms of the model
//! are one in a sheet (kind 5, flag 2), the form goes by the node's number, so
//! that each form is asked.

use std::collections::BTreeSet;

use crate::counters;
use crate::grammar::action::{ActionReference, ActionReferenceKind};
use crate::grammar::frontend::{SourceId, SourceSpan, SyntaxId};
use crate::grammar::model::*;
use sheets::tree;

pub(crate) struct Loaded {
    pub(crate) unit: GrammarUnit,
    pub(crate) ids: ModelIdAllocator,
    pub(crate) preserved: BTreeSet<RuleId>,
}

pub(crate) fn load(sheet: &tree::Sheet) -> Loaded {
    Loaded {
        unit: unit(sheet),
        ids: counters::set(&sheet.counters),
        preserved: sheet.preserved.iter().map(|id| RuleId::new(*id)).collect(),
    }
}

fn unit(sheet: &tree::Sheet) -> GrammarUnit {
    GrammarUnit {
        id: GrammarId::new(0),
        source: SourceId,
        name: String::new(),
        kind: match sheet.kind {
            1 => GrammarKind::Lexer,
            2 => GrammarKind::Parser,
            _ => GrammarKind::Combined,
        },
        prequels: Vec::new(),
        options: Vec::new(),
        tokens: Vec::new(),
        channels: Vec::new(),
        actions: Vec::new(),
        modes: Vec::new(),
        rules: sheet.rules.iter().map(rule).collect(),
        syntax: SyntaxId(0),
        span: SourceSpan,
    }
}

fn rule(source: &tree::Rule) -> Rule {
    let mut rule = Rule {
        id: RuleId::new(source.id),
        name: source.name.to_string(),
        name_span: SourceSpan,
        kind: RuleKind::Parser,
        fragment: false,
        modifiers: Vec::new(),
        arguments: (source.flags % 2 == 1).then(clause),
        returns: None,
        locals: None,
        throws: Vec::new(),
        options: Vec::new(),
        actions: Vec::new(),
        catches: Vec::new(),
        finally_action: None,
        left_recursion: None,
        block: block(&source.alternatives),
        mode: None,
        case_insensitive: None,
        syntax: SyntaxId(0),
        span: SourceSpan,
    };
    if source.flags >= 2 {
        stop_inlining(&mut rule, source.id);
    }
    rule
}

/// Flag 2: one of the things on the rule that `satellite_is_inlinable` turns down.
fn stop_inlining(rule: &mut Rule, form: u32) {
    match form % 8 {
        0 => rule.kind = RuleKind::Lexer,
        1 => rule.returns = Some(clause()),
        2 => rule.locals = Some(clause()),
        3 => rule.throws.push(authored(String::new())),
        4 => rule.actions.push(named_action()),
        5 => rule.catches.push(handler()),
        6 => rule.finally_action = Some(named_action()),
        _ => rule
            .options
            .push(option(&tree::OptionDecl { name: 1, value: 1 })),
    }
}

fn clause() -> AttributeClause {
    AttributeClause {
        text: String::new(),
        span: SourceSpan,
    }
}

fn handler() -> ExceptionHandler {
    ExceptionHandler {
        argument: String::new(),
        body: String::new(),
        body_span: SourceSpan,
        syntax: SyntaxId(0),
        span: SourceSpan,
    }
}

fn named_action() -> NamedAction {
    NamedAction {
        id: ActionId::new(0),
        scope: None,
        name: String::new(),
        body: String::new(),
        body_span: SourceSpan,
        syntax: SyntaxId(0),
        span: SourceSpan,
    }
}

pub(crate) fn authored(value: String) -> Authored<String> {
    Authored {
        value,
        syntax: SyntaxId(0),
        span: SourceSpan,
    }
}

fn option(source: &tree::OptionDecl) -> OptionDecl {
    OptionDecl {
        name: authored(source.name.to_string()),
        value: authored(source.value.to_string()),
    }
}

fn block(alternatives: &[tree::Alternative]) -> Block {
    Block {
        alternatives: alternatives.iter().map(alternative).collect(),
        options: Vec::new(),
        syntax: SyntaxId(0),
        span: SourceSpan,
    }
}

fn alternative(source: &tree::Alternative) -> Alternative {
    Alternative {
        id: AlternativeId::new(source.id),
        elements: source.elements.iter().map(element).collect(),
        label: source.labelled.then(|| authored(String::new())),
        options: source.options.iter().map(option).collect(),
        commands: Vec::new(),
        syntax: SyntaxId(source.carried),
        span: SourceSpan,
    }
}

fn element(source: &tree::Element) -> Element {
    Element {
        id: ElementId::new(source.id),
        kind: kind(source),
        quantifier: quantifier(source.quantifier),
        label: source.label.map(label),
        options: source.options.iter().map(option).collect(),
        syntax: SyntaxId(source.carried),
        span: SourceSpan,
        enclosing_span: SourceSpan,
    }
}

fn label(source: tree::Label) -> Label {
    Label {
        id: LabelId::new(source.id),
        name: source.name.to_string(),
        kind: if source.id.is_multiple_of(2) {
            LabelKind::Single
        } else {
            LabelKind::List
        },
        syntax: SyntaxId(0),
        span: SourceSpan,
    }
}

fn kind(source: &tree::Element) -> ElementKind {
    match &source.kind {
        tree::Kind::Epsilon => ElementKind::Epsilon,
        tree::Kind::Action(body) => ElementKind::Action {
            id: ActionId::new(body.id),
            body: text(&body.references),
        },
        tree::Kind::Predicate(body) => predicate(body),
        tree::Kind::Call {
            name,
            arguments,
            precedence,
        } => ElementKind::RuleCall(RuleCall {
            name: name.to_string(),
            arguments: (*arguments != 0).then(|| arguments.to_string()),
            precedence: precedence.checked_sub(1),
        }),
        tree::Kind::Token(name) => ElementKind::Terminal(Terminal::Token(name.to_string())),
        tree::Kind::Other => other(source.carried),
        tree::Kind::Block(alternatives) => ElementKind::Block(block(alternatives)),
        tree::Kind::EndOfInput => panic!("the original is asked about end of input by blocks"),
    }
}

/// Kind 5, in each of the model's forms that a sheet does not tell apart.
fn other(form: u32) -> ElementKind {
    match form % 6 {
        0 => ElementKind::Terminal(Terminal::Wildcard),
        1 => ElementKind::Terminal(Terminal::Eof),
        2 => ElementKind::Terminal(Terminal::Literal(form.to_string())),
        3 => ElementKind::Terminal(Terminal::LexerCharSet(form.to_string())),
        4 => ElementKind::Range(authored(String::new()), authored(String::new()), SourceSpan),
        _ => ElementKind::Set {
            inverted: false,
            elements: Vec::new(),
        },
    }
}

/// A predicate's last reference goes to its `fail` body where there are two or more.
fn predicate(source: &tree::Semantics) -> ElementKind {
    let split = match source.references.len() {
        0 | 1 => source.references.len(),
        many => many - 1,
    };
    let (body, fail) = source.references.split_at(split);
    ElementKind::Predicate {
        id: PredicateId::new(source.id),
        body: text(body),
        fail: (!fail.is_empty()).then(|| text(fail)),
        precedence: None,
    }
}

fn quantifier(number: u32) -> Quantifier {
    let greedy = number % 2 == 1;
    match number {
        0 => Quantifier::One,
        1 | 2 => Quantifier::Optional { greedy },
        3 | 4 => Quantifier::ZeroOrMore { greedy },
        _ => Quantifier::OneOrMore { greedy },
    }
}

/// References as words of a body: the kind's digit, then the name.
fn text(references: &[tree::Reference]) -> String {
    let words = references
        .iter()
        .map(|found| format!("{}{}", found.kind, found.name));
    words.collect::<Vec<_>>().join(" ")
}

/// The supplied action parser: it answers what the sheet says.
pub(crate) fn references(body: &str) -> Vec<ActionReference<'_>> {
    body.split_whitespace().map(reference).collect()
}

fn reference(word: &str) -> ActionReference<'_> {
    let (kind, name) = word.split_at(1);
    let kind = match kind {
        "0" => ActionReferenceKind::Attribute {
            name,
            assignment: false,
        },
        "1" => ActionReferenceKind::Qualified {
            name,
            attribute: "",
        },
        _ => ActionReferenceKind::NonLocal {
            rule: name,
            attribute: "",
        },
    };
    ActionReference {
        kind,
        expression: word,
        name_offset: 0,
        attribute_offset: None,
    }
}
