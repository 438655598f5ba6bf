//! A sheet in the notation of `parse`.

use std::fmt::Write as _;

use crate::names::{END_OF_INPUT, Names, Place, letter};
use crate::parse::{FIRST_IDS, least_counters};
use crate::tree::{Alternative, Element, Kind, OptionDecl, Rule, Semantics, Sheet};
use crate::walk::Sort;

#[derive(Clone, Copy, Debug, Eq, PartialEq)]
pub enum Style {
    /// For people: no ids, no counters, carried numbers of kind 5 alone.
    Plain,
    /// Every word of the sheet: `parse` gives the same sheet again.
    Full,
}

pub fn print(sheet: &Sheet, names: &Names, style: Style) -> String {
    let mut printer = Printer {
        names,
        style,
        next: FIRST_IDS,
        out: String::new(),
    };
    printer.sheet(sheet);
    printer.out
}

struct Printer<'a> {
    names: &'a Names,
    style: Style,
    next: [u32; 7],
    out: String,
}

impl Printer<'_> {
    fn sheet(&mut self, sheet: &Sheet) {
        match sheet.kind {
            1 => self.out.push_str("%kind lexer;\n"),
            3 => self.out.push_str("%kind combined;\n"),
            _ => {}
        }
        if !sheet.preserved.is_empty() {
            self.preserved(sheet);
        }
        if self.style == Style::Full && sheet.counters != least_counters(sheet) {
            let c = sheet.counters;
            let five = [c.alternative, c.element, c.label, c.action, c.predicate];
            let words = five.map(|word| word.to_string()).join(" ");
            let _ = writeln!(self.out, "%counters {words};");
        }
        for rule in &sheet.rules {
            self.rule(rule);
        }
    }

    fn preserved(&mut self, sheet: &Sheet) {
        self.out.push_str("%preserve");
        for id in &sheet.preserved {
            let rule = sheet.rules.iter().find(|rule| rule.id == *id);
            self.out.push(' ');
            match rule {
                Some(rule) if self.style == Style::Plain => self.name(rule.name, Place::Rule),
                _ => self.number(*id),
            }
        }
        self.out.push_str(";\n");
    }

    fn rule(&mut self, rule: &Rule) {
        self.name(rule.name, Place::Rule);
        self.id("@", rule.id, Sort::Rule);
        if rule.flags != 0 {
            let _ = write!(self.out, " !{}", rule.flags);
        }
        self.out.push(':');
        self.alternatives(&rule.alternatives);
        self.out.push_str(";\n");
    }

    fn alternatives(&mut self, alternatives: &[Alternative]) {
        if alternatives.is_empty() {
            self.out.push_str(" -");
        }
        for (place, alternative) in alternatives.iter().enumerate() {
            if place > 0 {
                self.out.push_str(" |");
            }
            self.alternative(alternative);
        }
    }

    fn alternative(&mut self, alternative: &Alternative) {
        self.id(" @", alternative.id, Sort::Alternative);
        if self.style == Style::Full {
            self.carried(" ", alternative.carried);
        }
        if alternative.labelled {
            self.out.push_str(" #");
        }
        if !alternative.options.is_empty() {
            self.out.push(' ');
            self.options(&alternative.options);
        }
        for element in &alternative.elements {
            self.out.push(' ');
            self.element(element);
        }
    }

    fn element(&mut self, element: &Element) {
        let before = self.out.len();
        self.id("^", element.id, Sort::Element);
        if self.out.len() > before {
            self.out.push(' ');
        }
        if let Some(label) = element.label {
            self.name(label.name, Place::Label);
            self.id("@", label.id, Sort::Label);
            self.out.push('=');
        }
        self.atom(element);
        let marks = ["", "?", "??", "*", "*?", "+", "+?"];
        self.out.push_str(marks[element.quantifier as usize]);
        self.precedence(&element.kind);
        self.options(&element.options);
        if self.style == Style::Full || element.kind == Kind::Other {
            self.carried("", element.carried);
        }
    }

    fn atom(&mut self, element: &Element) {
        match &element.kind {
            Kind::Epsilon => self.out.push('_'),
            Kind::Action(body) => self.semantics("{", body, Sort::Action),
            Kind::Predicate(body) => self.semantics("&{", body, Sort::Predicate),
            Kind::Call {
                name, arguments, ..
            } => {
                self.name(*name, Place::Rule);
                if *arguments != 0 {
                    let _ = write!(self.out, "[{arguments}]");
                }
            }
            Kind::Token(name) => self.name(*name, Place::Token),
            Kind::Other => self.out.push('.'),
            Kind::EndOfInput => self.out.push_str(END_OF_INPUT),
            Kind::Block(alternatives) => {
                self.out.push('(');
                self.alternatives(alternatives);
                self.out.push_str(" )");
            }
        }
    }

    fn precedence(&mut self, kind: &Kind) {
        if let Kind::Call {
            precedence: word @ 1..,
            ..
        } = kind
        {
            let _ = write!(self.out, "^{}", word - 1);
        }
    }

    fn semantics(&mut self, open: &str, body: &Semantics, sort: Sort) {
        self.out.push_str(open);
        self.id("@", body.id, sort);
        for (place, reference) in body.references.iter().enumerate() {
            self.out.push_str(if place > 0 { " $" } else { "$" });
            self.name(reference.name, Place::Label);
            self.out
                .push_str(["", ".a", "::a"][reference.kind as usize]);
        }
        self.out.push('}');
    }

    fn options(&mut self, options: &[OptionDecl]) {
        for (place, option) in options.iter().enumerate() {
            self.out.push(if place == 0 { '<' } else { ',' });
            self.name(option.name, Place::Option);
            let _ = write!(self.out, "={}", option.value);
        }
        if !options.is_empty() {
            self.out.push('>');
        }
    }

    fn name(&mut self, number: u32, place: Place) {
        let known = self.names.text(number, place);
        let _ = match (known, self.style) {
            (Some(text), Style::Plain) => write!(self.out, "{text}"),
            (Some(text), Style::Full) => write!(self.out, "{text}_{number}"),
            (None, _) => write!(self.out, "{}_{number}", letter(place)),
        };
    }

    /// An id is written where it is not the one that `parse` would give.
    fn id(&mut self, mark: &str, id: u32, sort: Sort) {
        let expected = self.next[sort as usize];
        self.next[sort as usize] = id.wrapping_add(1);
        if self.style == Style::Full && id != expected {
            let _ = write!(self.out, "{mark}{id}");
        }
    }

    fn carried(&mut self, gap: &str, carried: u32) {
        if carried != 0 {
            let _ = write!(self.out, "{gap}~{carried}");
        }
    }

    fn number(&mut self, number: u32) {
        let _ = write!(self.out, "{number}");
    }
}
