//! A grammar as a tree, and its words. Each word carries what it is, so that an edit can aim at it.

use crate::form::Form;

/// What a word of a sheet stands for.
#[derive(Clone, Copy, Debug, PartialEq, Eq)]
pub enum Field {
    RuleId,
    RuleName,
    RuleFlags,
    Flag,
    /// The id of a node with a counter: alternative 0, element 1, label 2, action 3, predicate 4.
    Id(usize),
    Count,
    Packed,
    Name,
    LabelName,
    /// The label words of an element without a label.
    NoLabel,
    ReferenceKind,
    /// Carried numbers, option values, arguments and precedences of calls.
    Free,
    Preserved,
    Kind,
    Distance,
    Counter(usize),
}

#[derive(Clone, Debug, Default)]
pub struct Unit {
    pub kind: u32,
    pub rules: Vec<Rule>,
    pub preserved: Vec<u32>,
    pub counters: [u32; 5],
}

#[derive(Clone, Debug, Default)]
pub struct Rule {
    pub id: u32,
    pub name: u32,
    pub flags: u32,
    pub alternatives: Vec<Alternative>,
}

#[derive(Clone, Debug, Default)]
pub struct Alternative {
    pub id: u32,
    pub carried: u32,
    pub flag: u32,
    pub options: Vec<(u32, u32)>,
    pub elements: Vec<Element>,
}

#[derive(Clone, Debug)]
pub struct Element {
    pub id: u32,
    pub carried: u32,
    pub quantifier: u32,
    /// Id and name.
    pub label: Option<(u32, u32)>,
    pub options: Vec<(u32, u32)>,
    pub payload: Payload,
}

#[derive(Clone, Debug)]
pub enum Payload {
    Epsilon,
    Action(u32, Vec<(u32, u32)>),
    Predicate(u32, Vec<(u32, u32)>),
    /// Name, arguments, and 0 or one more than the precedence.
    Call(u32, u32, u32),
    Token(u32),
    Other,
    Block(Vec<Alternative>),
    EndOfInput,
}

/// Words, and what each of them is.
#[derive(Clone, Debug, Default)]
pub struct Sheet {
    pub words: Vec<u32>,
    pub fields: Vec<Field>,
}

impl Sheet {
    pub fn of(unit: &Unit) -> Sheet {
        Sheet::of_in(Form::NEWEST, unit)
    }

    /// Panics at a call's precedence where the form has no place for it.
    pub fn of_in(form: Form, unit: &Unit) -> Sheet {
        let mut sheet = Sheet::default();
        unit.rules.iter().for_each(|rule| sheet.rule(form, rule));
        for id in &unit.preserved {
            sheet.put(*id, Field::Preserved);
        }
        let before = sheet.words.len() as u32;
        sheet.put(unit.kind, Field::Kind);
        sheet.put(before, Field::Distance);
        sheet.put(unit.preserved.len() as u32, Field::Distance);
        for (sort, counter) in unit.counters.iter().enumerate() {
            sheet.put(*counter, Field::Counter(sort));
        }
        sheet
    }

    pub fn bytes(&self) -> Vec<u8> {
        self.words.iter().flat_map(|w| w.to_le_bytes()).collect()
    }

    /// The places of the words that `wanted` picks.
    pub fn places(&self, wanted: impl Fn(Field) -> bool) -> Vec<usize> {
        (0..self.words.len())
            .filter(|at| wanted(self.fields[*at]))
            .collect()
    }

    fn put(&mut self, word: u32, field: Field) {
        self.words.push(word);
        self.fields.push(field);
    }

    fn count(&mut self, n: usize) {
        self.put(n as u32, Field::Count);
    }

    fn rule(&mut self, form: Form, rule: &Rule) {
        self.put(rule.id, Field::RuleId);
        self.put(rule.name, Field::RuleName);
        self.put(rule.flags, Field::RuleFlags);
        self.alternatives(form, &rule.alternatives);
    }

    fn alternatives(&mut self, form: Form, alternatives: &[Alternative]) {
        self.count(alternatives.len());
        for alternative in alternatives {
            self.put(alternative.id, Field::Id(0));
            self.put(alternative.carried, Field::Free);
            self.put(alternative.flag, Field::Flag);
            self.count(alternative.options.len());
            self.count(alternative.elements.len());
            self.options(&alternative.options);
            for element in &alternative.elements {
                self.element(form, element);
            }
        }
    }

    fn options(&mut self, options: &[(u32, u32)]) {
        for (name, value) in options {
            self.put(*name, Field::Name);
            self.put(*value, Field::Free);
        }
    }

    fn element(&mut self, form: Form, element: &Element) {
        self.put(element.id, Field::Id(1));
        self.put(element.carried, Field::Free);
        let packed = element.payload.kind() + 256 * element.quantifier;
        self.put(packed, Field::Packed);
        match element.label {
            None => (0..2).for_each(|_| self.put(0, Field::NoLabel)),
            Some((id, name)) => {
                self.put(id, Field::Id(2));
                self.put(name, Field::LabelName);
            }
        }
        self.count(element.options.len());
        self.options(&element.options);
        self.payload(form, &element.payload);
    }

    fn payload(&mut self, form: Form, payload: &Payload) {
        match payload {
            Payload::Epsilon | Payload::Other | Payload::EndOfInput => {}
            Payload::Action(id, references) => self.body(3, *id, references),
            Payload::Predicate(id, references) => self.body(4, *id, references),
            Payload::Call(name, arguments, precedence) => {
                self.put(*name, Field::Name);
                self.put(*arguments, Field::Free);
                self.precedence(form, *precedence);
            }
            Payload::Token(name) => self.put(*name, Field::Name),
            Payload::Block(alternatives) => self.alternatives(form, alternatives),
        }
    }

    fn precedence(&mut self, form: Form, precedence: u32) {
        if form.precedences {
            self.put(precedence, Field::Free);
        } else {
            assert_eq!(precedence, 0, "the form has no place for a precedence");
        }
    }

    fn body(&mut self, sort: usize, id: u32, references: &[(u32, u32)]) {
        self.put(id, Field::Id(sort));
        self.count(references.len());
        for (kind, name) in references {
            self.put(*kind, Field::ReferenceKind);
            self.put(*name, Field::Name);
        }
    }
}

impl Payload {
    pub fn kind(&self) -> u32 {
        match self {
            Payload::Epsilon => 0,
            Payload::Action(..) => 1,
            Payload::Predicate(..) => 2,
            Payload::Call(..) => 3,
            Payload::Token(_) => 4,
            Payload::Other => 5,
            Payload::Block(_) => 6,
            Payload::EndOfInput => 7,
        }
    }
}
