//! Sheets in the notation.

use std::collections::{BTreeMap, BTreeSet};
use std::fmt::Write as _;

use crate::names::{END_OF_INPUT, Names, Place};
use crate::parse::{FIRST_IDS, Grammar};
use crate::tree::{Alternative, Element, Kind, OptionDecl, Rule, Semantics};
use crate::walk::{Node, Sort, alternatives, least_counters};

#[derive(Clone, Copy, Debug, Eq, PartialEq)]
pub enum Style {
    /// For people: of the ids those of rules alone, no numbers of names, no counters.
    Plain,
    /// Every word of the sheet: `parse` gives the same sheet again.
    Full,
}

/// A whole grammar, a rule on each line.
pub fn print(grammar: &Grammar, style: Style) -> String {
    let mut printer = Printer::of(grammar, style);
    let mut out = printer.directives();
    for rule in &grammar.sheet.rules {
        out += &printer.rule(rule);
    }
    out
}

/// A table of names as `%names`; nothing where it is empty.
pub fn names_text(names: &Names) -> String {
    let mut out = String::new();
    for (number, text) in names.all() {
        let _ = write!(out, "\n    {text}={number}");
    }
    if out.is_empty() {
        return out;
    }
    format!("%names{out}\n;\n")
}

/// Prints the parts of one grammar, in reading order, since an id is written where it is not the next one.
pub struct Printer<'a> {
    grammar: &'a Grammar,
    style: Style,
    /// Names whose text does not fit all places where they stand; they are written by number everywhere.
    unfit: BTreeSet<u32>,
    next: [u32; 7],
}

impl<'a> Printer<'a> {
    pub fn of(grammar: &'a Grammar, style: Style) -> Self {
        Printer {
            grammar,
            style,
            unfit: unfit(grammar),
            next: FIRST_IDS,
        }
    }

    /// The lines in front of the rules.
    pub fn directives(&self) -> String {
        let sheet = &self.grammar.sheet;
        let mut out = match sheet.kind {
            1 => "%kind lexer;\n".to_owned(),
            3 => "%kind combined;\n".to_owned(),
            _ => String::new(),
        };
        if self.style == Style::Full {
            out += &self.numbers();
        }
        if !sheet.preserved.is_empty() {
            let ids = sheet.preserved.iter().map(|id| self.preserved(*id));
            let _ = writeln!(out, "%preserve {};", ids.collect::<Vec<_>>().join(" "));
        }
        out
    }

    /// The table of names, and the counters where they are not the least.
    fn numbers(&self) -> String {
        let names = &self.grammar.names;
        let fit = names
            .all()
            .filter(|(number, _)| !self.unfit.contains(number));
        let pairs = fit.map(|(number, text)| format!(" {text}={number}"));
        let pairs = pairs.collect::<String>();
        let mut out = match pairs.is_empty() {
            true => pairs,
            false => format!("%names{pairs};\n"),
        };
        let own = self.grammar.sheet.counters;
        if own != least_counters(&self.grammar.sheet) {
            let words = [own.alternative, own.element, own.label, own.action];
            let words = words.map(|word| word.to_string()).join(" ");
            let _ = writeln!(out, "%counters {words} {};", own.predicate);
        }
        out
    }

    /// By name where a rule has the id, and where that name has a text.
    fn preserved(&self, id: u32) -> String {
        let mut rules = self.grammar.sheet.rules.iter();
        let rule = rules.find(|rule| rule.id == id && self.text(rule.name).is_some());
        rule.map_or(id.to_string(), |rule| self.name(rule.name, Place::Rule))
    }

    pub fn rule(&mut self, rule: &Rule) -> String {
        let head = self.head(rule);
        let body = self.alternatives(&rule.alternatives);
        format!("{head}:{body};\n")
    }

    /// What stands in front of a rule's colon.
    pub fn head(&mut self, rule: &Rule) -> String {
        let mut out = self.name(rule.name, Place::Rule);
        out += &self.id("@", rule.id, Sort::Rule);
        if rule.flags != 0 {
            let _ = write!(out, " !{}", rule.flags);
        }
        out
    }

    fn alternatives(&mut self, list: &[Alternative]) -> String {
        if list.is_empty() {
            return " -".to_owned();
        }
        let texts = list.iter().map(|own| self.alternative(own));
        texts.collect::<Vec<_>>().join(" |")
    }

    /// An alternative, each of its parts behind a space.
    pub fn alternative(&mut self, own: &Alternative) -> String {
        let mut out = self.id(" @", own.id, Sort::Alternative);
        out += &carried(" ", own.carried);
        if own.labelled {
            out.push_str(if self.is_like_label(own) { " #:" } else { " #" });
        }
        if !own.options.is_empty() {
            out.push(' ');
            out += &self.options(&own.options);
        }
        for element in &own.elements {
            out.push(' ');
            out += &self.element(element);
        }
        out
    }

    /// Whether what comes first could be taken for the name of a label: a name with a text that is no rule's.
    fn is_like_label(&self, own: &Alternative) -> bool {
        let first = own.elements.first();
        let bare = first.filter(|element| own.options.is_empty() && element.label.is_none());
        let mut rules = self.grammar.sheet.rules.iter();
        match bare.map(|element| &element.kind) {
            Some(Kind::Token(name)) => self.text(*name).is_some(),
            Some(Kind::Call { name, .. }) => {
                self.text(*name).is_some() && !rules.any(|rule| rule.name == *name)
            }
            _ => false,
        }
    }

    fn element(&mut self, own: &Element) -> String {
        let mut out = self.id("^", own.id, Sort::Element);
        if !out.is_empty() {
            out.push(' ');
        }
        if let Some(label) = own.label {
            out += &self.name(label.name, Place::Label);
            out += &self.id("@", label.id, Sort::Label);
            out.push('=');
        }
        out += &self.atom(&own.kind);
        out += ["", "?", "??", "*", "*?", "+", "+?"][own.quantifier as usize];
        out += &precedence(&own.kind);
        out += &self.options(&own.options);
        out + &carried("", own.carried)
    }

    fn atom(&mut self, kind: &Kind) -> String {
        match kind {
            Kind::Epsilon => "_".to_owned(),
            Kind::Action(body) => self.semantics("{", body, Sort::Action),
            Kind::Predicate(body) => self.semantics("&{", body, Sort::Predicate),
            Kind::Call {
                name, arguments, ..
            } => {
                let name = self.name(*name, Place::Call);
                match arguments {
                    0 => name,
                    _ => format!("{name}[{arguments}]"),
                }
            }
            Kind::Token(name) => self.name(*name, Place::Token),
            Kind::Other => ".".to_owned(),
            Kind::EndOfInput => END_OF_INPUT.to_owned(),
            Kind::Block(inner) => format!("({} )", self.alternatives(inner)),
        }
    }

    fn semantics(&mut self, open: &str, body: &Semantics, sort: Sort) -> String {
        let id = self.id("@", body.id, sort);
        let known = self.grammar.attributes.get(&(sort, body.id));
        let mut parts: Vec<String> = Vec::from_iter((!id.is_empty()).then_some(id));
        for (place, reference) in body.references.iter().enumerate() {
            let name = self.name(reference.name, Place::Label);
            let attribute = known.and_then(|texts| texts.get(place));
            let attribute = attribute.filter(|text| !text.is_empty());
            let attribute = attribute.map_or("?", String::as_str);
            parts.push(match reference.kind {
                0 => format!("${name}"),
                1 => format!("${name}.{attribute}"),
                _ => format!("${name}::{attribute}"),
            });
        }
        format!("{open}{}}}", parts.join(" "))
    }

    fn options(&self, options: &[OptionDecl]) -> String {
        if options.is_empty() {
            return String::new();
        }
        let one =
            |own: &OptionDecl| format!("{}={}", self.name(own.name, Place::Option), own.value);
        let texts = options.iter().map(one).collect::<Vec<_>>();
        format!("<{}>", texts.join(","))
    }

    fn text(&self, number: u32) -> Option<&str> {
        let fits = !self.unfit.contains(&number);
        self.grammar.names.text(number).filter(|_| fits)
    }

    pub fn name(&self, number: u32, place: Place) -> String {
        match self.text(number) {
            Some(text) => text.to_owned(),
            None => format!("{}%{number}", place.letter()),
        }
    }

    /// An id is written where it is not the one that `parse` would give.
    fn id(&mut self, mark: &str, id: u32, sort: Sort) -> String {
        let expected = self.next[sort as usize];
        self.next[sort as usize] = id.wrapping_add(1);
        let told = self.style == Style::Full || sort == Sort::Rule;
        match told && id != expected {
            true => format!("{mark}{id}"),
            false => String::new(),
        }
    }
}

/// Behind the quantifier, which stands behind the arguments.
fn precedence(kind: &Kind) -> String {
    match kind {
        Kind::Call {
            precedence: word @ 1..,
            ..
        } => format!("^{}", word - 1),
        _ => String::new(),
    }
}

fn carried(gap: &str, number: u32) -> String {
    match number {
        0 => String::new(),
        _ => format!("{gap}~{number}"),
    }
}

/// The kind of a parser unit, in which a rule has no token's name.
const PARSER: u32 = 2;

/// Numbers that stand where their text cannot.
fn unfit(grammar: &Grammar) -> BTreeSet<u32> {
    let mut found = BTreeMap::new();
    let mut see = |number: u32, place: Place| {
        let text = grammar.names.text(number);
        *found.entry(number).or_insert(false) |= text.is_some_and(|text| !place.fits(text));
    };
    for rule in &grammar.sheet.rules {
        if grammar.sheet.kind == PARSER {
            see(rule.name, Place::Call);
        }
        alternatives(&rule.alternatives, &mut |node| {
            if let Node::Element(_, own) = node {
                match own.kind {
                    Kind::Call { name, .. } => see(name, Place::Call),
                    Kind::Token(name) => see(name, Place::Token),
                    _ => {}
                }
            }
        });
    }
    let unfit = found.into_iter().filter(|(_, unfit)| *unfit);
    unfit.map(|(number, _)| number).collect()
}
