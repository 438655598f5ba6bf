//! All derivation trees of a rule for a string, one by one, each as a text.

use std::cell::RefCell;
use std::collections::{BTreeMap, BTreeSet};

use demand3::strings::{Symbol, symbol};
use sheets::tree::{Alternative, Element, Kind, Sheet};

type Texts = BTreeSet<String>;
/// The name of a rule, a string, and the depth that is left.
type Asked = (u32, Vec<Symbol>, usize);

pub struct Lister<'a> {
    sheet: &'a Sheet,
    slots: bool,
    known: RefCell<BTreeMap<Asked, Texts>>,
}

impl<'a> Lister<'a> {
    pub fn with_slots(sheet: &'a Sheet) -> Self {
        Lister {
            sheet,
            slots: true,
            known: RefCell::default(),
        }
    }

    /// In which equal alternatives of a rule or block make one tree.
    pub fn without_slots(sheet: &'a Sheet) -> Self {
        Lister {
            slots: false,
            ..Lister::with_slots(sheet)
        }
    }

    /// For a rule that has finitely many: no tree is deeper than one for each rule and length.
    pub fn trees(&self, rule: u32, string: &[Symbol]) -> Texts {
        self.rule(rule, string, self.sheet.rules.len() * (string.len() + 1))
    }

    fn rule(&self, name: u32, string: &[Symbol], depth: usize) -> Texts {
        let mut rules = self.sheet.rules.iter();
        let rule = rules.find(|rule| rule.name == name).expect("a rule");
        if depth == 0 {
            return Texts::new();
        }
        let key = (name, string.to_vec(), depth);
        if let Some(known) = self.known.borrow().get(&key) {
            return known.clone();
        }
        let body = self.alternatives(&rule.alternatives, string, depth - 1);
        let found: Texts = body.iter().map(|text| format!("r{name}({text})")).collect();
        self.known.borrow_mut().insert(key, found.clone());
        found
    }

    fn alternatives(&self, list: &[Alternative], string: &[Symbol], depth: usize) -> Texts {
        let mut out = Texts::new();
        for (slot, one) in list.iter().enumerate() {
            let slot = if self.slots { slot } else { 0 };
            let all = self.sequence(&one.elements, string, depth);
            out.extend(all.iter().map(|text| format!("{slot}:{text}")));
        }
        out
    }

    fn sequence(&self, elements: &[Element], string: &[Symbol], depth: usize) -> Texts {
        let Some((first, rest)) = elements.split_first() else {
            return end(string);
        };
        let front = |part: &[Symbol]| self.element(first, part, depth);
        pairs(string, 0, front, |part| self.sequence(rest, part, depth))
    }

    fn element(&self, element: &Element, string: &[Symbol], depth: usize) -> Texts {
        let once = |part: &[Symbol]| self.once(element, part, depth);
        match element.quantifier {
            0 => once(string),
            1 | 2 => {
                let present = once(string).into_iter().map(|text| format!("there {text}"));
                let absent = end(string).into_iter().map(|_| "absent".to_owned());
                present.chain(absent).collect()
            }
            3 | 4 => times(string, &once),
            _ => pairs(string, 0, once, |part| times(part, &once)),
        }
    }

    fn once(&self, element: &Element, string: &[Symbol], depth: usize) -> Texts {
        if let Some(found) = symbol(element, self.sheet) {
            let own = string == [found];
            return own.then(|| format!("{found:?}")).into_iter().collect();
        }
        match &element.kind {
            Kind::Call { name, .. } => self.rule(*name, string, depth),
            Kind::Block(inner) => {
                let all = self.alternatives(inner, string, depth);
                all.iter().map(|text| format!("({text})")).collect()
            }
            _ => end(string),
        }
    }
}

/// One tree, of nothing, for the empty string.
fn end(string: &[Symbol]) -> Texts {
    let empty = string.is_empty();
    empty.then(String::new).into_iter().collect()
}

/// Any number of times, each time something: with an empty time there would be no end.
fn times(string: &[Symbol], once: &impl Fn(&[Symbol]) -> Texts) -> Texts {
    let more = pairs(string, 1, once, |part| times(part, once));
    let more = more.into_iter().map(|text| format!("more {text}"));
    more.chain(end(string)).collect()
}

/// Every tree of a front of at least so many symbols, before every tree of the back.
fn pairs(
    string: &[Symbol],
    least: usize,
    front: impl Fn(&[Symbol]) -> Texts,
    back: impl Fn(&[Symbol]) -> Texts,
) -> Texts {
    let mut out = Texts::new();
    for cut in least..=string.len() {
        let (left, right) = string.split_at(cut);
        let first = front(left);
        let second = if first.is_empty() {
            Texts::new()
        } else {
            back(right)
        };
        for text in &first {
            out.extend(second.iter().map(|more| format!("{text} {more}")));
        }
    }
    out
}
