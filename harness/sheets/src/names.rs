//! Names as text and as the sheet's numbers.

use std::collections::BTreeMap;

/// Texts get numbers in the order of their first appearance, from 1.
/// A text that ends in `_` and digits has that number: `e_1`, `T_700`.
#[derive(Clone, Debug, Default)]
pub struct Names {
    by_text: BTreeMap<String, u32>,
    taken: Vec<u32>,
}

/// Where a name stands. It gives the letter for a name without a text.
#[derive(Clone, Copy, Debug, Eq, PartialEq)]
pub enum Place {
    Rule,
    Token,
    Label,
    Option,
}

impl Names {
    /// Numbers written out in `texts` are kept free of other names.
    pub fn reserving<'a>(texts: impl Iterator<Item = &'a str>) -> Self {
        Names {
            by_text: BTreeMap::new(),
            taken: texts.filter_map(written_number).collect(),
        }
    }

    pub fn number(&mut self, text: &str) -> u32 {
        if let Some(number) = written_number(text) {
            return number;
        }
        if let Some(number) = self.by_text.get(text) {
            return *number;
        }
        let free = (1..).find(|number| !self.taken.contains(number));
        let number = free.expect("some number is free");
        self.taken.push(number);
        self.by_text.insert(text.to_owned(), number);
        number
    }

    /// The text of a number where one is known and fits the place.
    pub fn text(&self, number: u32, place: Place) -> Option<&str> {
        let known = self.by_text.iter().find(|(_, value)| **value == number);
        let text = known.map(|(text, _)| text.as_str())?;
        let fits = match place {
            Place::Rule => !is_token(text),
            Place::Token => is_token(text) && text != END_OF_INPUT,
            Place::Label | Place::Option => true,
        };
        fits.then_some(text)
    }
}

/// Not a token: the word for the element of kind 7.
pub const END_OF_INPUT: &str = "EOF";

/// In the notation a capital letter in front makes a token, as in ANTLR.
pub fn is_token(text: &str) -> bool {
    text.starts_with(|letter: char| letter.is_ascii_uppercase())
}

pub fn written_number(text: &str) -> Option<u32> {
    let (_, digits) = text.rsplit_once('_')?;
    digits.parse().ok()
}

pub fn letter(place: Place) -> &'static str {
    match place {
        Place::Rule => "r",
        Place::Token => "T",
        Place::Label => "x",
        Place::Option => "o",
    }
}
