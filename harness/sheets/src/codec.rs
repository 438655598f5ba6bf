//! Trees to words and back, with refusals 1 and 3 to 6 (SPECIFICATION 4).

use crate::form::Form;
use crate::tree::{
    Alternative, Counters, Element, Kind, Label, OptionDecl, Reference, Rule, Semantics, Sheet,
};
use crate::walk;

pub const MOST_BYTES: usize = 32_768;
pub const MOST_RULES: usize = 128;
pub const MOST_DEPTH: usize = 8;
/// The last name: names are all words but 0.
pub const MOST_NAME: u32 = u32::MAX;
const TRAILER: usize = 8;

/// The number of the refusal.
pub type Refusal = u32;

pub fn words_of(bytes: &[u8]) -> Vec<u32> {
    let chunks = bytes.chunks_exact(4);
    chunks
        .map(|four| u32::from_le_bytes([four[0], four[1], four[2], four[3]]))
        .collect()
}

pub fn bytes_of(words: &[u32]) -> Vec<u8> {
    words.iter().flat_map(|word| word.to_le_bytes()).collect()
}

pub fn encode(sheet: &Sheet) -> Vec<u32> {
    encode_in(Form::NEWEST, sheet)
}

/// Panics at a call's precedence where the form has no place for it: such a tree has no words there.
pub fn encode_in(form: Form, sheet: &Sheet) -> Vec<u32> {
    let mut out = Vec::new();
    for rule in &sheet.rules {
        out.extend([rule.id, rule.name, rule.flags]);
        put_alternatives(form, &rule.alternatives, &mut out);
    }
    out.extend(&sheet.preserved);
    let first = out.len() as u32;
    let counters = sheet.counters;
    out.extend([sheet.kind, first, sheet.preserved.len() as u32]);
    out.extend([counters.alternative, counters.element, counters.label]);
    out.extend([counters.action, counters.predicate]);
    out
}

fn put_alternatives(form: Form, alternatives: &[Alternative], out: &mut Vec<u32>) {
    out.push(alternatives.len() as u32);
    for alternative in alternatives {
        out.extend([
            alternative.id,
            alternative.carried,
            u32::from(alternative.labelled),
        ]);
        out.extend([
            alternative.options.len() as u32,
            alternative.elements.len() as u32,
        ]);
        put_options(&alternative.options, out);
        for element in &alternative.elements {
            put_element(form, element, out);
        }
    }
}

fn put_options(options: &[OptionDecl], out: &mut Vec<u32>) {
    for option in options {
        out.extend([option.name, option.value]);
    }
}

fn put_element(form: Form, element: &Element, out: &mut Vec<u32>) {
    let label = element.label.unwrap_or(Label { id: 0, name: 0 });
    out.extend([element.id, element.carried]);
    out.push(element.kind.number() + 256 * element.quantifier);
    out.extend([label.id, label.name, element.options.len() as u32]);
    put_options(&element.options, out);
    match &element.kind {
        Kind::Epsilon | Kind::Other | Kind::EndOfInput => {}
        Kind::Action(body) | Kind::Predicate(body) => put_semantics(body, out),
        Kind::Call {
            name,
            arguments,
            precedence,
        } => {
            out.extend([*name, *arguments]);
            put_precedence(form, *precedence, out);
        }
        Kind::Token(name) => out.push(*name),
        Kind::Block(alternatives) => put_alternatives(form, alternatives, out),
    }
}

fn put_precedence(form: Form, precedence: u32, out: &mut Vec<u32>) {
    if form.precedences {
        out.push(precedence);
    } else {
        assert_eq!(precedence, 0, "the form has no place for a precedence");
    }
}

fn put_semantics(body: &Semantics, out: &mut Vec<u32>) {
    out.extend([body.id, body.references.len() as u32]);
    for reference in &body.references {
        out.extend([reference.kind, reference.name]);
    }
}

/// The tree of a sheet, or the lowest refusal of 1 and 3 to 6 that holds.
pub fn read(bytes: &[u8]) -> Result<Sheet, Refusal> {
    read_in(Form::NEWEST, bytes)
}

pub fn read_in(form: Form, bytes: &[u8]) -> Result<Sheet, Refusal> {
    let sheet = tree_in(form, bytes)?;
    check_ids(&sheet)?;
    Ok(sheet)
}

/// The tree that stands in the bytes, or the lowest refusal of 1, 3 and 4 that holds; 5 and 6 are not asked.
pub fn tree(bytes: &[u8]) -> Result<Sheet, Refusal> {
    tree_in(Form::NEWEST, bytes)
}

pub fn tree_in(form: Form, bytes: &[u8]) -> Result<Sheet, Refusal> {
    if bytes.len() < 4 * TRAILER || bytes.len() > MOST_BYTES || !bytes.len().is_multiple_of(4) {
        return Err(1);
    }
    let words = words_of(bytes);
    let (body, trailer) = words.split_at(words.len() - TRAILER);
    let (kind, first, second) = (trailer[0], trailer[1] as usize, trailer[2] as usize);
    if !(1..=3).contains(&kind) || first != body.len() || second > first {
        return Err(3);
    }
    let (records, preserved) = body.split_at(first - second);
    let rules = Cursor {
        form,
        words: records,
    }
    .rules();
    let sheet = Sheet {
        kind,
        rules: rules.ok_or(4u32)?,
        preserved: preserved.to_vec(),
        counters: counters_of(&trailer[3..]),
    };
    if !preserved.is_sorted_by(|one, next| one < next) {
        return Err(4);
    }
    Ok(sheet)
}

fn counters_of(words: &[u32]) -> Counters {
    Counters {
        alternative: words[0],
        element: words[1],
        label: words[2],
        action: words[3],
        predicate: words[4],
    }
}

fn check_ids(sheet: &Sheet) -> Result<(), Refusal> {
    let ids = walk::ids(sheet);
    let names = sheet.rules.iter().map(|rule| rule.name).collect();
    if repeats(ids.clone()) || repeats(names) {
        return Err(5);
    }
    let free = |&(sort, id)| walk::counter(&sheet.counters, sort).is_none_or(|next| id < next);
    if ids.iter().all(free) { Ok(()) } else { Err(6) }
}

fn repeats<T: Ord>(mut list: Vec<T>) -> bool {
    list.sort_unstable();
    list.windows(2).any(|pair| pair[0] == pair[1])
}

/// What is left of the records; `None` from any step is refusal 4.
struct Cursor<'a> {
    form: Form,
    words: &'a [u32],
}

impl Cursor<'_> {
    fn word(&mut self) -> Option<u32> {
        let (first, rest) = self.words.split_first()?;
        self.words = rest;
        Some(*first)
    }

    fn at_most(&mut self, most: u32) -> Option<u32> {
        self.word().filter(|value| *value <= most)
    }

    fn name(&mut self) -> Option<u32> {
        self.word().filter(|name| *name != 0)
    }

    fn rules(mut self) -> Option<Vec<Rule>> {
        let mut rules = Vec::new();
        while !self.words.is_empty() {
            if rules.len() == MOST_RULES {
                return None;
            }
            rules.push(Rule {
                id: self.word()?,
                name: self.name()?,
                flags: self.at_most(3)?,
                alternatives: self.alternatives(0)?,
            });
        }
        Some(rules)
    }

    fn alternatives(&mut self, depth: usize) -> Option<Vec<Alternative>> {
        if depth > MOST_DEPTH {
            return None;
        }
        let count = self.word()?;
        (0..count).map(|_| self.alternative(depth)).collect()
    }

    fn alternative(&mut self, depth: usize) -> Option<Alternative> {
        let (id, carried) = (self.word()?, self.word()?);
        let labelled = self.at_most(1)? == 1;
        let (option_count, element_count) = (self.word()?, self.word()?);
        Some(Alternative {
            id,
            carried,
            labelled,
            options: self.options(option_count)?,
            elements: (0..element_count)
                .map(|_| self.element(depth))
                .collect::<Option<_>>()?,
        })
    }

    fn options(&mut self, count: u32) -> Option<Vec<OptionDecl>> {
        (0..count)
            .map(|_| {
                Some(OptionDecl {
                    name: self.name()?,
                    value: self.word()?,
                })
            })
            .collect()
    }

    fn element(&mut self, depth: usize) -> Option<Element> {
        let (id, carried) = (self.word()?, self.word()?);
        let packed = self.word()?;
        let (kind, quantifier) = (packed % 256, packed / 256);
        if kind > 7 || quantifier > 6 {
            return None;
        }
        let label = self.label()?;
        let option_count = self.word()?;
        Some(Element {
            id,
            carried,
            quantifier,
            label,
            options: self.options(option_count)?,
            kind: self.payload(kind, depth)?,
        })
    }

    fn label(&mut self) -> Option<Option<Label>> {
        let (id, name) = (self.word()?, self.word()?);
        if name == 0 {
            return (id == 0).then_some(None);
        }
        Some(Some(Label { id, name }))
    }

    fn payload(&mut self, kind: u32, depth: usize) -> Option<Kind> {
        Some(match kind {
            0 => Kind::Epsilon,
            1 => Kind::Action(self.semantics()?),
            2 => Kind::Predicate(self.semantics()?),
            3 => Kind::Call {
                name: self.name()?,
                arguments: self.word()?,
                precedence: self.precedence()?,
            },
            4 => Kind::Token(self.name()?),
            5 => Kind::Other,
            6 => Kind::Block(self.alternatives(depth + 1)?),
            _ => Kind::EndOfInput,
        })
    }

    fn precedence(&mut self) -> Option<u32> {
        if self.form.precedences {
            self.word()
        } else {
            Some(0)
        }
    }

    fn semantics(&mut self) -> Option<Semantics> {
        let (id, count) = (self.word()?, self.word()?);
        let references = (0..count)
            .map(|_| {
                Some(Reference {
                    kind: self.at_most(2)?,
                    name: self.name()?,
                })
            })
            .collect::<Option<_>>()?;
        Some(Semantics { id, references })
    }
}
