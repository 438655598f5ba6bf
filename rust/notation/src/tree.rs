//! What a sheet holds (SPECIFICATION 2.7), as a tree.

#[derive(Clone, Debug, Default, Eq, PartialEq)]
pub struct Sheet {
    /// 1 lexer, 2 parser, 3 combined.
    pub kind: u32,
    pub rules: Vec<Rule>,
    /// Rule ids, rising.
    pub preserved: Vec<u32>,
    pub counters: Counters,
}

/// The next free id of each sort, in the trailer's order.
#[derive(Clone, Copy, Debug, Default, Eq, PartialEq)]
pub struct Counters {
    pub alternative: u32,
    pub element: u32,
    pub label: u32,
    pub action: u32,
    pub predicate: u32,
}

#[derive(Clone, Debug, Default, Eq, PartialEq)]
pub struct Rule {
    pub id: u32,
    pub name: u32,
    pub flags: u32,
    pub alternatives: Vec<Alternative>,
}

#[derive(Clone, Debug, Default, Eq, PartialEq)]
pub struct Alternative {
    pub id: u32,
    pub carried: u32,
    pub labelled: bool,
    pub options: Vec<OptionDecl>,
    pub elements: Vec<Element>,
}

#[derive(Clone, Copy, Debug, Eq, PartialEq)]
pub struct OptionDecl {
    pub name: u32,
    pub value: u32,
}

#[derive(Clone, Debug, Eq, PartialEq)]
pub struct Element {
    pub id: u32,
    pub carried: u32,
    /// 0 once; 1, 2 optional; 3, 4 zero or more; 5, 6 one or more; the odd ones are greedy.
    pub quantifier: u32,
    pub label: Option<Label>,
    pub options: Vec<OptionDecl>,
    pub kind: Kind,
}

#[derive(Clone, Copy, Debug, Eq, PartialEq)]
pub struct Label {
    pub id: u32,
    pub name: u32,
}

#[derive(Clone, Debug, Eq, PartialEq)]
pub enum Kind {
    Epsilon,
    Action(Semantics),
    Predicate(Semantics),
    Call {
        name: u32,
        /// 0 without.
        arguments: u32,
        /// 0 without, else one more than the precedence.
        precedence: u32,
    },
    Token(u32),
    /// Kind 5: any other terminal, a range or a set.
    Other,
    Block(Vec<Alternative>),
    /// Kind 7, which is matched without moving on; no carried number tells two of them apart.
    EndOfInput,
}

/// The own id of an action or predicate, and what its body refers to.
#[derive(Clone, Debug, Default, Eq, PartialEq)]
pub struct Semantics {
    pub id: u32,
    pub references: Vec<Reference>,
}

#[derive(Clone, Copy, Debug, Eq, PartialEq)]
pub struct Reference {
    /// 0 attribute, 1 qualified, 2 non-local.
    pub kind: u32,
    pub name: u32,
}

impl Kind {
    pub fn number(&self) -> u32 {
        match self {
            Kind::Epsilon => 0,
            Kind::Action(_) => 1,
            Kind::Predicate(_) => 2,
            Kind::Call { .. } => 3,
            Kind::Token(_) => 4,
            Kind::Other => 5,
            Kind::Block(_) => 6,
            Kind::EndOfInput => 7,
        }
    }
}
