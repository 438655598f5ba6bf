//! Facts about grammars in the notation, told by name.
#![allow(dead_code)]

use analysis::facts::{Facts, RULES, Row, facts};
use sheets::codec::{bytes_of, encode};
use sheets::names::Place;
use sheets::parse::parse;

pub struct Named {
    pub facts: Facts,
    names: Vec<String>,
}

/// By the original's reading.
pub fn rust(grammar: &str) -> Named {
    named(grammar, false)
}

pub fn textbook(grammar: &str) -> Named {
    named(grammar, true)
}

/// For a grammar on which the readings agree.
pub fn both(grammar: &str) -> Named {
    let by_rust = rust(grammar);
    assert_eq!(by_rust.facts, textbook(grammar).facts, "{grammar}");
    by_rust
}

pub fn bytes(grammar: &str) -> Vec<u8> {
    let (sheet, _) = parse(grammar).expect("the notation");
    bytes_of(&encode(&sheet))
}

fn named(grammar: &str, textbook: bool) -> Named {
    let (sheet, names) = parse(grammar).expect("the notation");
    let text = |name| names.text(name, Place::Rule).map(str::to_owned);
    let facts = facts(&bytes(grammar), textbook);
    assert_eq!(
        facts.numbers[..2],
        [0, sheet.rules.len() as u32],
        "{grammar}"
    );
    assert_zeros_behind(&facts);
    Named {
        facts,
        names: sheet
            .rules
            .iter()
            .map(|rule| text(rule.name).unwrap_or(format!("r_{}", rule.name)))
            .collect(),
    }
}

/// Zeros behind the last rule and the last cycle, and no bit of a rule that is not there.
pub fn assert_zeros_behind(facts: &Facts) {
    let [_, rules, cycles] = facts.numbers.map(|number| number as usize);
    let none = [0; 2];
    assert!(facts.calls[rules..].iter().all(|row| *row == none));
    assert!(facts.corners[rules..].iter().all(|row| *row == none));
    assert!(facts.cycles[cycles..].iter().all(|row| *row == none));
    let all = [facts.nullable(), facts.fixed()].into_iter();
    let all = all.chain(facts.calls).chain(facts.corners);
    for row in all.chain(facts.cycles) {
        assert!(members(row).iter().all(|rule| *rule < rules));
    }
}

pub fn members(row: Row) -> Vec<usize> {
    let bit = |rule: &usize| row[rule / 64] >> (rule % 64) & 1 == 1;
    (0..RULES).filter(bit).collect()
}

impl Named {
    fn texts(&self, row: Row) -> String {
        let texts = members(row).into_iter().map(|rule| &*self.names[rule]);
        texts.collect::<Vec<_>>().join(" ")
    }

    fn place(&self, rule: &str) -> usize {
        let place = self.names.iter().position(|name| name == rule);
        place.unwrap_or_else(|| panic!("no rule {rule}"))
    }

    pub fn nullable(&self) -> String {
        self.texts(self.facts.nullable())
    }

    /// The rules that cannot be inlined.
    pub fn fixed(&self) -> String {
        self.texts(self.facts.fixed())
    }

    pub fn calls(&self, rule: &str) -> String {
        self.texts(self.facts.calls[self.place(rule)])
    }

    pub fn corners(&self, rule: &str) -> String {
        self.texts(self.facts.corners[self.place(rule)])
    }

    /// The left corners of every rule, as in `e: a b; a:`.
    pub fn all_corners(&self) -> String {
        let rules = self.names.iter();
        let one = |rule: &String| format!("{rule}: {}", self.corners(rule));
        let all: Vec<String> = rules.map(|rule| one(rule).trim_end().to_owned()).collect();
        all.join("; ")
    }

    pub fn cycles(&self) -> Vec<String> {
        let count = self.facts.numbers[2] as usize;
        let rows = &self.facts.cycles[..count];
        rows.iter().map(|row| self.texts(*row)).collect()
    }
}
