//! What the alternatives of a grammar can end with: left corners, seen from the other end.

use std::collections::{BTreeMap, BTreeSet, VecDeque};

use notation::{Alternative, Element, Kind, Rule, Sheet};

/// Quantifiers by which an element may be left out.
const SKIPPING: std::ops::RangeInclusive<u32> = 1..=4;

/// Of the rules of a sheet, by their names: which can be empty, and what each can end with.
pub struct Ends {
    rules: BTreeSet<u32>,
    empty: BTreeSet<u32>,
    last: BTreeMap<u32, BTreeSet<u32>>,
}

/// A call of a rule with which an alternative can end.
#[derive(Clone, Copy, Debug, Eq, PartialEq)]
pub struct Last {
    pub name: u32,
    /// The outermost element in which it stands, from 0 on.
    pub element: usize,
    /// Nothing stands around it or behind it, and it has neither quantifier nor arguments: a level reaches it.
    pub is_plain: bool,
}

impl Ends {
    pub fn of(sheet: &Sheet) -> Ends {
        let rules = sheet.rules.iter().map(|rule| rule.name).collect();
        let mut ends = Ends {
            rules,
            empty: BTreeSet::new(),
            last: BTreeMap::new(),
        };
        while let Some(more) = ends.next_empty(&sheet.rules) {
            ends.empty.insert(more);
        }
        for rule in &sheet.rules {
            let found = rule.alternatives.iter().flat_map(|own| ends.lasts(own));
            let names = found.map(|last| last.name).collect();
            ends.last.insert(rule.name, names);
        }
        ends
    }

    fn next_empty(&self, rules: &[Rule]) -> Option<u32> {
        let mut more = rules
            .iter()
            .filter(|rule| !self.empty.contains(&rule.name) && self.any_empty(&rule.alternatives));
        more.next().map(|rule| rule.name)
    }

    fn any_empty(&self, list: &[Alternative]) -> bool {
        let all = |own: &Alternative| {
            own.elements
                .iter()
                .all(|element| self.can_be_empty(element))
        };
        list.iter().any(all)
    }

    pub fn is_empty(&self, rule: u32) -> bool {
        self.empty.contains(&rule)
    }

    /// SPECIFICATION 6.2.
    pub fn can_be_empty(&self, own: &Element) -> bool {
        if SKIPPING.contains(&own.quantifier) {
            return true;
        }
        match &own.kind {
            Kind::Epsilon | Kind::Action(_) | Kind::Predicate(_) | Kind::EndOfInput => true,
            Kind::Call { name, .. } => self.empty.contains(name),
            Kind::Block(inner) => self.any_empty(inner),
            Kind::Token(_) | Kind::Other => false,
        }
    }

    /// The calls of rules with which an alternative can end, found through blocks and what can be empty.
    pub fn lasts(&self, own: &Alternative) -> Vec<Last> {
        let mut found = Vec::new();
        let mut is_bare = true;
        for (place, element) in own.elements.iter().enumerate().rev() {
            let mut names = BTreeSet::new();
            self.calls_at_end(element, &mut names);
            let is_plain = is_bare && is_plain_call(element);
            found.extend(names.into_iter().map(|name| Last {
                name,
                element: place,
                is_plain,
            }));
            if !self.can_be_empty(element) {
                break;
            }
            is_bare &= is_nothing(element);
        }
        found
    }

    fn calls_at_end(&self, own: &Element, names: &mut BTreeSet<u32>) {
        match &own.kind {
            Kind::Call { name, .. } if self.rules.contains(name) => {
                names.insert(*name);
            }
            Kind::Block(inner) => {
                let inner = inner.iter().flat_map(|own| self.lasts(own));
                names.extend(inner.map(|last| last.name));
            }
            _ => {}
        }
    }

    /// The rules on the shortest way from one rule to another, each of which can end with the next; nothing where there
    /// is none. The first of them is in it, the other is not.
    pub fn way(&self, from: u32, to: u32) -> Option<Vec<u32>> {
        let mut ways = VecDeque::from([vec![from]]);
        let mut seen = BTreeSet::from([from]);
        while let Some(way) = ways.pop_front() {
            let next = &self.last[way.last()?];
            if next.contains(&to) {
                return Some(way);
            }
            for name in next.iter().filter(|name| seen.insert(**name)) {
                ways.push_back([&way[..], &[*name]].concat());
            }
        }
        None
    }
}

pub fn is_plain_call(own: &Element) -> bool {
    own.quantifier == 0 && matches!(own.kind, Kind::Call { arguments: 0, .. })
}

/// Epsilon, an action or a predicate, which no text stands for.
pub fn is_nothing(own: &Element) -> bool {
    let kinds = matches!(
        own.kind,
        Kind::Epsilon | Kind::Action(_) | Kind::Predicate(_)
    );
    kinds && own.quantifier == 0
}

#[cfg(test)]
mod tests {
    use super::*;

    fn lasts(text: &str) -> Vec<(String, usize, bool)> {
        let grammar = notation::parse(text).expect("the notation");
        let ends = Ends::of(&grammar.sheet);
        let found = ends.lasts(&grammar.sheet.rules[0].alternatives[0]);
        let name = |number| grammar.names.text(number).expect("a name").to_owned();
        let told = |last: Last| (name(last.name), last.element, last.is_plain);
        found.into_iter().map(told).collect()
    }

    fn last(name: &str, element: usize, is_plain: bool) -> (String, usize, bool) {
        (name.to_owned(), element, is_plain)
    }

    #[test]
    fn calls_at_the_end() {
        for (text, expected) in [
            ("e: X e;", vec![last("e", 1, true)]),
            ("e: X x=e {} _ &{};", vec![last("e", 1, true)]),
            ("e: X e Y;", vec![]),
            ("e: X none;", vec![]),
            ("e: X e?;", vec![last("e", 1, false)]),
            ("e: X e[5];", vec![last("e", 1, false)]),
            ("e: X e {}?;", vec![last("e", 1, false)]),
            ("e: X e Y*;", vec![last("e", 1, false)]),
            ("e: X e EOF;", vec![last("e", 1, false)]),
            ("e: X e EOF+;", vec![last("e", 1, false)]),
            (
                "e: X e n; n: Y?;",
                vec![last("n", 2, true), last("e", 1, false)],
            ),
            ("e: X ( Y | Z e? ) ;", vec![last("e", 1, false)]),
            ("e: X ( e ( Y | ) );", vec![last("e", 1, false)]),
            (
                "e: X ( e | a ); a: Y;",
                vec![last("e", 1, false), last("a", 1, false)],
            ),
        ] {
            assert_eq!(lasts(text), expected, "{text}");
        }
    }

    #[test]
    fn ways() {
        let text = "e: a | X; a: Y b n; b: ( Z e | W )+; c: a Y; n: ;";
        let grammar = notation::parse(text).expect("the notation");
        let ends = Ends::of(&grammar.sheet);
        let number = |text| grammar.names.number(text).expect("a name");
        let way = |from, to| {
            let way = ends.way(number(from), number(to))?;
            let names = way.iter().map(|name| grammar.names.text(*name).unwrap());
            Some(names.collect::<Vec<_>>().join(" "))
        };
        assert_eq!(way("a", "e").as_deref(), Some("a b"));
        assert_eq!(way("b", "e").as_deref(), Some("b"));
        assert_eq!(way("c", "e"), None);
        assert_eq!(way("n", "e"), None);
    }
}
