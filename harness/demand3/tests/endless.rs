//! Trees without end, told a second way, for the grammars that are enumerated whole.

use std::collections::BTreeMap;

use demand3::grammars::{ALL, numbered};
use demand3::readings::Number::WithoutEnd;
use demand3::readings::{Table, numbers};
use demand3::strings::{Alphabet, EMPTY_STRING, alphabet, languages};
use sheets::tree::{Element, Kind, Rule, Sheet};

/// Another account of trees without end, for the grammars of `numbered`, where strings
/// differ in length alone: sets of lengths are bits. A rule that can be a call of itself
/// with nothing beside it, by way of others too, has trees without end for all that it
/// derives, and what holds a part without end is so itself.
struct Lengths<'a> {
    sheet: &'a Sheet,
    derived: BTreeMap<u32, u32>,
    endless: BTreeMap<u32, u32>,
}

impl Lengths<'_> {
    fn of(&self, element: &Element, rules: &BTreeMap<u32, u32>) -> u32 {
        match element.kind {
            Kind::Call { name, .. } => rules[&name],
            _ => 0b10,
        }
    }

    fn derived(&self, element: &Element) -> u32 {
        self.of(element, &self.derived) | u32::from(element.may_be_absent())
    }

    /// What an alternative derives, with these lengths for the element at a place.
    fn around(&self, elements: &[Element], place: usize, lengths: u32) -> u32 {
        let sum = |front: u32, back: u32| {
            let shifted = (0..5).filter(|by| back >> by & 1 == 1);
            shifted.fold(0, |all, by| all | front << by) & 0b1_1111
        };
        let places = elements.iter().enumerate();
        places.fold(1, |front, (at, one)| match at == place {
            true => sum(front, lengths),
            false => sum(front, self.derived(one)),
        })
    }

    /// Names of the rules that a rule can be a call of, with nothing beside it.
    fn only_calls(&self, rule: &Rule) -> Vec<u32> {
        let mut out = Vec::new();
        for alternative in &rule.alternatives {
            for (place, element) in alternative.elements.iter().enumerate() {
                let alone = self.around(&alternative.elements, place, 1) & 1 == 1;
                match element.kind {
                    Kind::Call { name, .. } if alone => out.push(name),
                    _ => {}
                }
            }
        }
        out
    }

    fn comes_back(&self, rule: &Rule) -> bool {
        let mut seen = self.only_calls(rule);
        for _ in &self.sheet.rules {
            let further = self
                .sheet
                .rules
                .iter()
                .filter(|one| seen.contains(&one.name));
            seen.extend(
                further
                    .flat_map(|one| self.only_calls(one))
                    .collect::<Vec<_>>(),
            );
        }
        seen.contains(&rule.name)
    }

    fn endless(&self, rule: &Rule) -> u32 {
        if self.comes_back(rule) {
            return self.derived[&rule.name];
        }
        let mut out = 0;
        for alternative in &rule.alternatives {
            for (place, element) in alternative.elements.iter().enumerate() {
                if let Kind::Call { .. } = element.kind {
                    let lengths = self.of(element, &self.endless);
                    out |= self.around(&alternative.elements, place, lengths);
                }
            }
        }
        out
    }
}

fn endless_lengths(sheet: &Sheet, symbols: &Alphabet) -> BTreeMap<u32, u32> {
    let strings_of_length = [EMPTY_STRING, 1 << 1, 1 << 4, 1 << 13, 1 << 40];
    let lengths = |strings: u128| {
        let bits = strings_of_length.iter().enumerate();
        bits.map(|(length, bit)| u32::from(strings & bit != 0) << length)
            .sum()
    };
    let derived = languages(sheet, symbols).into_iter();
    let mut found = Lengths {
        sheet,
        derived: derived
            .map(|(name, strings)| (name, lengths(strings)))
            .collect(),
        endless: sheet.rules.iter().map(|rule| (rule.name, 0)).collect(),
    };
    loop {
        let rules = sheet.rules.iter();
        let endless = rules.map(|rule| (rule.name, found.endless(rule))).collect();
        if endless == found.endless {
            return endless;
        }
        found.endless = endless;
    }
}

#[test]
fn trees_are_without_end_where_a_rule_comes_back_to_itself() {
    let mut times = 0;
    for place in (0..ALL).step_by(397) {
        let sheet = numbered(place);
        let symbols = alphabet([&sheet].into_iter()).expect("one symbol");
        let table = Table::up_to(4, &symbols);
        let endless = endless_lengths(&sheet, &symbols);
        for (rule, row) in numbers(&sheet, &table) {
            for (length, number) in row.into_iter().enumerate() {
                // The names of these grammars are their rules' ids.
                let expected = endless[&rule] >> length & 1 == 1;
                let found = number == WithoutEnd;
                assert_eq!(found, expected, "number {place}: {rule}, {length} symbols");
                times += usize::from(expected);
            }
        }
    }
    assert!(times > 50_000);
}
