//! What a sheet holds (SPECIFICATION 2.7), as a tree.

#[derive(Clone, Debug, Default, Eq, PartialEq)]
pub struct Sheet {
    pub kind: u32,
    pub rules: Vec<Rule>,
    pub preserved: Vec<u32>,
    pub counters: Counters,
}

/// The next free id of each sort, in the trailer's order.
#[derive(Clone, Copy, Debug, Default, Eq, PartialEq)]
pub struct Counters {
    pub alternative: u32,
    pub element: u32,
    pub label: u32,
    pub action: u32,
    pub predicate: u32,
}

#[derive(Clone, Debug, Default, Eq, PartialEq)]
pub struct Rule {
    pub id: u32,
    pub name: u32,
    pub flags: u32,
    pub alternatives: Vec<Alternative>,
}

#[derive(Clone, Debug, Default, Eq, PartialEq)]
pub struct Alternative {
    pub id: u32,
    pub carried: u32,
    pub labelled: bool,
    pub options: Vec<OptionDecl>,
    pub elements: Vec<Element>,
}

#[derive(Clone, Copy, Debug, Eq, PartialEq)]
pub struct OptionDecl {
    pub name: u32,
    pub value: u32,
}

#[derive(Clone, Debug, Eq, PartialEq)]
pub struct Element {
    pub id: u32,
    pub carried: u32,
    pub quantifier: u32,
    pub label: Option<Label>,
    pub options: Vec<OptionDecl>,
    pub kind: Kind,
}

#[derive(Clone, Copy, Debug, Eq, PartialEq)]
pub struct Label {
    pub id: u32,
    pub name: u32,
}

#[derive(Clone, Debug, Eq, PartialEq)]
pub enum Kind {
    Epsilon,
    Action(Semantics),
    Predicate(Semantics),
    Call {
        name: u32,
        arguments: u32,
        /// 0 without one, else one more than it.
        precedence: u32,
    },
    Token(u32),
    /// Kind 5: another terminal, a range or a set.
    Other,
    Block(Vec<Alternative>),
    /// Kind 7: the end of input, which is matched without moving on.
    EndOfInput,
}

/// The own id of an action or predicate, and what its body refers to.
#[derive(Clone, Debug, Eq, PartialEq)]
pub struct Semantics {
    pub id: u32,
    pub references: Vec<Reference>,
}

/// `kind` is 0 attribute, 1 qualified, 2 non-local.
#[derive(Clone, Copy, Debug, Eq, PartialEq)]
pub struct Reference {
    pub kind: u32,
    pub name: u32,
}

pub mod quantifier {
    pub const ONE: u32 = 0;
    pub const OPTIONAL: u32 = 1;
    pub const OPTIONAL_NONGREEDY: u32 = 2;
    pub const ZERO_OR_MORE: u32 = 3;
    pub const ZERO_OR_MORE_NONGREEDY: u32 = 4;
    pub const ONE_OR_MORE: u32 = 5;
    pub const ONE_OR_MORE_NONGREEDY: u32 = 6;
}

impl Kind {
    pub fn number(&self) -> u32 {
        match self {
            Kind::Epsilon => 0,
            Kind::Action(_) => 1,
            Kind::Predicate(_) => 2,
            Kind::Call { .. } => 3,
            Kind::Token(_) => 4,
            Kind::Other => 5,
            Kind::Block(_) => 6,
            Kind::EndOfInput => 7,
        }
    }
}

impl Element {
    pub fn new(kind: Kind) -> Self {
        Element {
            id: 0,
            carried: 0,
            quantifier: quantifier::ONE,
            label: None,
            options: Vec::new(),
            kind,
        }
    }

    pub fn is_end_of_input(&self) -> bool {
        self.kind == Kind::EndOfInput
    }

    /// Quantifiers 1 to 4: the element may be left out.
    pub fn may_be_absent(&self) -> bool {
        (quantifier::OPTIONAL..=quantifier::ZERO_OR_MORE_NONGREEDY).contains(&self.quantifier)
    }
}
