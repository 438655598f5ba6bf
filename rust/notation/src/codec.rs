//! Trees to the bytes of a sheet and back (SPECIFICATION 2.1 to 2.12).

use crate::tree::{
    Alternative, Counters, Element, Kind, Label, OptionDecl, Reference, Rule, Semantics, Sheet,
};
use crate::{MOST_DEPTH, MOST_RULES};

const TRAILER: usize = 8;

impl Sheet {
    pub fn words(&self) -> Vec<u32> {
        let mut out = Vec::new();
        for rule in &self.rules {
            out.extend([rule.id, rule.name, rule.flags]);
            put_alternatives(&rule.alternatives, &mut out);
        }
        out.extend(&self.preserved);
        let own = self.counters;
        out.extend([self.kind, out.len() as u32, self.preserved.len() as u32]);
        out.extend([own.alternative, own.element, own.label]);
        out.extend([own.action, own.predicate]);
        out
    }

    pub fn bytes(&self) -> Vec<u8> {
        self.words()
            .iter()
            .flat_map(|word| word.to_le_bytes())
            .collect()
    }

    /// The tree of a sheet; `None` for bytes that hold none. Ids, names and counters are not judged: that
    /// is the pass's part.
    pub fn of_bytes(bytes: &[u8]) -> Option<Sheet> {
        let chunks = bytes.chunks_exact(4);
        if !chunks.remainder().is_empty() {
            return None;
        }
        let words: Vec<u32> = chunks
            .map(|four| u32::from_le_bytes([four[0], four[1], four[2], four[3]]))
            .collect();
        Sheet::of_words(&words)
    }

    fn of_words(words: &[u32]) -> Option<Sheet> {
        let (body, trailer) = words.split_at_checked(words.len().checked_sub(TRAILER)?)?;
        let &[kind, first, second, ref counters @ ..] = trailer else {
            return None;
        };
        let records = body.len().checked_sub(second as usize)?;
        let (records, preserved) = body.split_at(records);
        (first as usize == body.len() && (1..=3).contains(&kind)).then_some(())?;
        Some(Sheet {
            kind,
            rules: Cursor { words: records }.rules()?,
            preserved: preserved.to_vec(),
            counters: counters_of(counters),
        })
    }
}

fn counters_of(words: &[u32]) -> Counters {
    Counters {
        alternative: words[0],
        element: words[1],
        label: words[2],
        action: words[3],
        predicate: words[4],
    }
}

fn put_alternatives(alternatives: &[Alternative], out: &mut Vec<u32>) {
    out.push(alternatives.len() as u32);
    for own in alternatives {
        out.extend([own.id, own.carried, u32::from(own.labelled)]);
        out.extend([own.options.len() as u32, own.elements.len() as u32]);
        put_options(&own.options, out);
        for element in &own.elements {
            put_element(element, out);
        }
    }
}

fn put_options(options: &[OptionDecl], out: &mut Vec<u32>) {
    for option in options {
        out.extend([option.name, option.value]);
    }
}

fn put_element(own: &Element, out: &mut Vec<u32>) {
    let label = own.label.unwrap_or(Label { id: 0, name: 0 });
    out.extend([
        own.id,
        own.carried,
        own.kind.number() + 256 * own.quantifier,
    ]);
    out.extend([label.id, label.name, own.options.len() as u32]);
    put_options(&own.options, out);
    match &own.kind {
        Kind::Epsilon | Kind::Other | Kind::EndOfInput => {}
        Kind::Action(body) | Kind::Predicate(body) => {
            out.extend([body.id, body.references.len() as u32]);
            out.extend(body.references.iter().flat_map(|one| [one.kind, one.name]));
        }
        Kind::Call {
            name,
            arguments,
            precedence,
        } => out.extend([*name, *arguments, *precedence]),
        Kind::Token(name) => out.push(*name),
        Kind::Block(inner) => put_alternatives(inner, out),
    }
}

/// What is left of the records. A step is `None` where they are cut short or have a value of no list.
struct Cursor<'a> {
    words: &'a [u32],
}

impl Cursor<'_> {
    fn word(&mut self) -> Option<u32> {
        let (first, rest) = self.words.split_first()?;
        self.words = rest;
        Some(*first)
    }

    fn rules(mut self) -> Option<Vec<Rule>> {
        let mut rules = Vec::new();
        while !self.words.is_empty() {
            (rules.len() < MOST_RULES).then_some(())?;
            rules.push(Rule {
                id: self.word()?,
                name: self.word()?,
                flags: self.word()?,
                alternatives: self.alternatives(0)?,
            });
        }
        Some(rules)
    }

    fn alternatives(&mut self, depth: usize) -> Option<Vec<Alternative>> {
        (depth <= MOST_DEPTH).then_some(())?;
        let count = self.word()?;
        (0..count).map(|_| self.alternative(depth)).collect()
    }

    fn alternative(&mut self, depth: usize) -> Option<Alternative> {
        let (id, carried, flag) = (self.word()?, self.word()?, self.word()?);
        let (options, elements) = (self.word()?, self.word()?);
        Some(Alternative {
            id,
            carried,
            labelled: flag == 1,
            options: self.options(options)?,
            elements: (0..elements)
                .map(|_| self.element(depth))
                .collect::<Option<_>>()?,
        })
    }

    fn options(&mut self, count: u32) -> Option<Vec<OptionDecl>> {
        let mut one = || {
            Some(OptionDecl {
                name: self.word()?,
                value: self.word()?,
            })
        };
        (0..count).map(|_| one()).collect()
    }

    fn element(&mut self, depth: usize) -> Option<Element> {
        let (id, carried, both) = (self.word()?, self.word()?, self.word()?);
        let (label, name) = (self.word()?, self.word()?);
        let options = self.word()?;
        (both / 256 <= 6).then_some(())?;
        Some(Element {
            id,
            carried,
            quantifier: both / 256,
            label: (name != 0).then_some(Label { id: label, name }),
            options: self.options(options)?,
            kind: self.payload(both % 256, depth)?,
        })
    }

    fn payload(&mut self, kind: u32, depth: usize) -> Option<Kind> {
        Some(match kind {
            0 => Kind::Epsilon,
            1 => Kind::Action(self.semantics()?),
            2 => Kind::Predicate(self.semantics()?),
            3 => Kind::Call {
                name: self.word()?,
                arguments: self.word()?,
                precedence: self.word()?,
            },
            4 => Kind::Token(self.word()?),
            5 => Kind::Other,
            6 => Kind::Block(self.alternatives(depth + 1)?),
            7 => Kind::EndOfInput,
            _ => return None,
        })
    }

    fn semantics(&mut self) -> Option<Semantics> {
        let (id, count) = (self.word()?, self.word()?);
        let mut one = || {
            let (kind, name) = (self.word()?, self.word()?);
            (kind <= 2).then_some(Reference { kind, name })
        };
        let references = (0..count).map(|_| one()).collect::<Option<_>>()?;
        Some(Semantics { id, references })
    }
}
