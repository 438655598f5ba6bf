//! What a grammar derives, as sets of token strings of at most four symbols.
//!
//! As SPECIFICATION 13 reads a grammar. Sets of strings
//! over three symbols fit the 121 lowest bits of a word: by length, then by value.

use std::collections::BTreeMap;

use sheets::tree::{Alternative, Element, Kind, Sheet};
use sheets::walk;

pub const LONGEST: usize = 4;
const SYMBOLS: usize = 3;
/// Where the strings of each length start.
const START: [u32; LONGEST + 1] = [0, 1, 4, 13, 40];
const POWER: [u32; LONGEST + 1] = [1, 3, 9, 27, 81];

pub type Strings = u128;
pub const EMPTY_STRING: Strings = 1;

/// A token, a call whose name no rule has, kind 5 with its carried number, or the end mark, which is one whatever kind 7 carries.
#[derive(Clone, Copy, Debug, Eq, Ord, PartialEq, PartialOrd)]
pub enum Symbol {
    Token(u32),
    Unknown(u32),
    Other(u32),
    End,
}

/// The symbols of several grammars, numbered.
pub type Alphabet = BTreeMap<Symbol, u32>;

pub fn symbol(element: &Element, sheet: &Sheet) -> Option<Symbol> {
    match element.kind {
        Kind::Token(name) => Some(Symbol::Token(name)),
        Kind::Other => Some(Symbol::Other(element.carried)),
        Kind::EndOfInput => Some(Symbol::End),
        Kind::Call { name, .. } if sheet.rules.iter().all(|rule| rule.name != name) => {
            Some(Symbol::Unknown(name))
        }
        _ => None,
    }
}

/// Nothing where there are more symbols than the sets have room for.
pub fn alphabet<'a>(sheets: impl Iterator<Item = &'a Sheet>) -> Option<Alphabet> {
    let mut alphabet = Alphabet::new();
    for sheet in sheets {
        for element in sheet.rules.iter().flat_map(walk::elements) {
            if let Some(found) = symbol(element, sheet) {
                let next = alphabet.len() as u32;
                alphabet.entry(found).or_insert(next);
            }
        }
    }
    (alphabet.len() <= SYMBOLS).then_some(alphabet)
}

/// What each rule derives, by name: the least solution.
pub type Languages = BTreeMap<u32, Strings>;

pub fn languages(sheet: &Sheet, alphabet: &Alphabet) -> Languages {
    solved(sheet, alphabet, false)
}

/// The same with all end marks left out of the strings. So the empty string is there exactly where a string of end marks
/// alone is derived, of any length.
pub fn without_marks(sheet: &Sheet, alphabet: &Alphabet) -> Languages {
    solved(sheet, alphabet, true)
}

fn solved(sheet: &Sheet, alphabet: &Alphabet, erases: bool) -> Languages {
    let mut reader = Reader {
        sheet,
        alphabet,
        erases,
        languages: Languages::new(),
    };
    loop {
        let before = reader.languages.clone();
        for rule in &sheet.rules {
            let derived = reader.alternatives(&rule.alternatives);
            reader.languages.insert(rule.name, derived);
        }
        if reader.languages == before {
            return before;
        }
    }
}

struct Reader<'a> {
    sheet: &'a Sheet,
    alphabet: &'a Alphabet,
    /// Whether end marks are left out.
    erases: bool,
    languages: Languages,
}

impl Reader<'_> {
    fn alternatives(&self, list: &[Alternative]) -> Strings {
        list.iter()
            .fold(0, |sum, one| sum | self.sequence(&one.elements))
    }

    fn sequence(&self, elements: &[Element]) -> Strings {
        elements
            .iter()
            .fold(EMPTY_STRING, |front, one| joined(front, self.element(one)))
    }

    fn element(&self, element: &Element) -> Strings {
        let once = self.once(element);
        match element.quantifier {
            0 => once,
            1 | 2 => once | EMPTY_STRING,
            3 | 4 => repeated(once),
            _ => joined(once, repeated(once)),
        }
    }

    fn once(&self, element: &Element) -> Strings {
        if self.erases && element.is_end_of_input() {
            return EMPTY_STRING;
        }
        if let Some(found) = symbol(element, self.sheet) {
            return 1 << (START[1] + self.alphabet[&found]);
        }
        match &element.kind {
            Kind::Call { name, .. } => self.languages.get(name).copied().unwrap_or(0),
            Kind::Block(inner) => self.alternatives(inner),
            _ => EMPTY_STRING,
        }
    }
}

/// Whether an element, or a list of them, can be empty in the grammar that derives these strings `without_marks`.
pub fn can_be_empty(elements: &[Element], languages: &Languages) -> bool {
    elements.iter().all(|element| {
        element.may_be_absent()
            || match &element.kind {
                Kind::Epsilon | Kind::Action(_) | Kind::Predicate(_) | Kind::EndOfInput => true,
                Kind::Token(_) | Kind::Other => false,
                Kind::Call { name, .. } => languages
                    .get(name)
                    .is_some_and(|derived| derived & EMPTY_STRING != 0),
                Kind::Block(inner) => inner
                    .iter()
                    .any(|one| can_be_empty(&one.elements, languages)),
            }
    })
}

/// Every string of `front` before every string of `back`, as far as four symbols go.
fn joined(front: Strings, back: Strings) -> Strings {
    let mut out = 0;
    for length in 0..=LONGEST {
        for value in 0..POWER[length] {
            if front >> (START[length] + value) & 1 == 0 {
                continue;
            }
            for rest in 0..=LONGEST - length {
                let strings = back >> START[rest] & ((1 << POWER[rest]) - 1);
                out |= strings << (START[length + rest] + value * POWER[rest]);
            }
        }
    }
    out
}

fn repeated(once: Strings) -> Strings {
    let mut out = EMPTY_STRING;
    loop {
        let more = EMPTY_STRING | joined(once, out);
        if more == out {
            return out;
        }
        out = more;
    }
}
