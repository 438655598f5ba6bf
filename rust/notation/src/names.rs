//! Names as text and as the sheet's numbers.

use std::collections::{BTreeMap, BTreeSet};

/// The table of names of a sheet that was made from a text: every spelling is a name of its own. `r%7` and the like,
/// names of a number without a text, have no entry.
#[derive(Clone, Debug, Default)]
pub struct Names {
    by_text: BTreeMap<String, u32>,
    by_number: BTreeMap<u32, String>,
    /// Numbers without a text that no text may take.
    reserved: BTreeSet<u32>,
    /// No number below is free.
    free: u32,
}

/// Tables are equal where their names and numbers are.
impl PartialEq for Names {
    fn eq(&self, other: &Names) -> bool {
        self.by_number == other.by_number
    }
}

impl Eq for Names {}

/// Where a name stands. It gives the letter for a name without a text.
#[derive(Clone, Copy, Debug, Eq, PartialEq)]
pub enum Place {
    /// The name of a rule, where the rule is written.
    Rule,
    Call,
    Token,
    /// Labels and references.
    Label,
    Option,
}

impl Place {
    pub(crate) fn letter(self) -> char {
        match self {
            Place::Rule | Place::Call => 'r',
            Place::Token => 'T',
            Place::Label => 'x',
            Place::Option => 'o',
        }
    }

    /// Whether a text can stand here: a call and a token are told apart by the first letter, and `EOF` is neither.
    pub(crate) fn fits(self, text: &str) -> bool {
        match self {
            Place::Call => !is_token(text),
            Place::Token => is_token(text) && text != END_OF_INPUT,
            Place::Rule | Place::Label | Place::Option => true,
        }
    }
}

impl Names {
    /// An empty table, in which these numbers, which are written out, are kept free.
    pub(crate) fn reserving(numbers: impl Iterator<Item = u32>) -> Self {
        Names {
            reserved: numbers.collect(),
            ..Names::default()
        }
    }

    pub fn text(&self, number: u32) -> Option<&str> {
        self.by_number.get(&number).map(String::as_str)
    }

    pub fn number(&self, text: &str) -> Option<u32> {
        self.by_text.get(text).copied()
    }

    /// Numbers and texts, the numbers rising.
    pub fn all(&self) -> impl Iterator<Item = (u32, &str)> {
        self.by_number
            .iter()
            .map(|(number, text)| (*number, text.as_str()))
    }

    pub fn is_empty(&self) -> bool {
        self.by_number.is_empty()
    }

    /// The number of a text; a new one where it has none.
    pub(crate) fn number_for(&mut self, text: &str) -> u32 {
        if let Some(number) = self.number(text) {
            return number;
        }
        self.free = self.free.max(1);
        while self.reserved.contains(&self.free) || self.by_number.contains_key(&self.free) {
            self.free += 1;
        }
        self.put(text, self.free);
        self.free
    }

    /// Gives a text a number; `None` where either is taken.
    pub(crate) fn set(&mut self, text: &str, number: u32) -> Option<()> {
        let taken = self.number(text).is_some()
            || self.by_number.contains_key(&number)
            || self.reserved.contains(&number);
        (!taken).then(|| self.put(text, number))
    }

    fn put(&mut self, text: &str, number: u32) {
        self.by_text.insert(text.to_owned(), number);
        self.by_number.insert(number, text.to_owned());
    }
}

/// The word for the end of input, which is no token. A label or an option may still have the name.
pub(crate) const END_OF_INPUT: &str = "EOF";

/// A capital letter in front makes a token, as in ANTLR.
pub(crate) fn is_token(text: &str) -> bool {
    text.starts_with(|letter: char| letter.is_ascii_uppercase())
}
