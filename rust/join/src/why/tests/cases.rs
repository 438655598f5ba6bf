//! The cycles that are declined, with what is told of them, and other sheets about which the library is asked.

use std::sync::LazyLock;

use mutual_recursion::{Decision, Reading, cycles};
use notation::{Alternative, Element, Grammar, Kind, Rule, Semantics, Sheet, least_counters};

use super::{READINGS, found, grammars};
use crate::ends::Ends;
use crate::why::{Found, hub_of};

/// What no grammar from a seed has.
pub(super) const NAME: u32 = 60_000;
pub(super) const ID: u32 = 1_000_000;

/// A cycle that is declined, and what is told of it.
pub(super) struct Case {
    pub sheet: Sheet,
    pub members: Vec<u32>,
    pub reading: Reading,
    pub found: Found,
}

impl Case {
    pub(super) fn rules(&self) -> impl Iterator<Item = &Rule> {
        let within = |rule: &&Rule| self.members.contains(&rule.id);
        self.sheet.rules.iter().filter(within)
    }

    pub(super) fn hub(&self) -> &Rule {
        let hub = hub_of(&self.sheet, &self.members);
        self.rules()
            .find(|rule| Some(rule.id) == hub)
            .expect("a hub")
    }

    pub(super) fn is_member(&self, name: u32) -> bool {
        self.rules().any(|rule| rule.name == name)
    }

    /// The numbers of the names that are told.
    pub(super) fn names(&self) -> Vec<u32> {
        let parts = self.found.how.split('`').skip(1).step_by(2);
        parts.filter_map(|name| name.parse().ok()).collect()
    }

    /// The library's clause for the same cycle of another sheet, 0 where it is not declined; nothing where it is no cycle there.
    pub(super) fn clause(&self, mut sheet: Sheet) -> Option<u32> {
        sheet.counters = least_counters(&sheet);
        let all = cycles(&sheet.bytes(), self.reading).expect("a sheet");
        let own = all.iter().find(|own| own.members == self.members)?;
        Some(match own.decision {
            Decision::Declined(clause) => clause.number(),
            _ => 0,
        })
    }

    /// The sheet with other alternatives of the hub; nothing where these make it empty, or not empty, otherwise than before.
    pub(super) fn with_hub(&self, list: Vec<Alternative>) -> Option<Sheet> {
        let (id, name) = (self.hub().id, self.hub().name);
        let mut sheet = self.sheet.clone();
        let hub = sheet.rules.iter_mut().find(|rule| rule.id == id);
        hub.expect("the hub").alternatives = list;
        let is_empty = |sheet| Ends::of(sheet).is_empty(name);
        (is_empty(&sheet) == is_empty(&self.sheet)).then_some(sheet)
    }

    /// The sheet with each element of the cycle changed, in blocks too.
    pub(super) fn with_elements(&self, change: impl Fn(&mut Element)) -> Sheet {
        self.with_rules(|rule| each(&mut rule.alternatives, &change))
    }

    pub(super) fn with_rules(&self, change: impl Fn(&mut Rule)) -> Sheet {
        let mut sheet = self.sheet.clone();
        let within = |rule: &&mut Rule| self.members.contains(&rule.id);
        sheet.rules.iter_mut().filter(within).for_each(change);
        sheet
    }
}

pub(super) fn each(list: &mut [Alternative], change: &impl Fn(&mut Element)) {
    for element in list.iter_mut().flat_map(|own| &mut own.elements) {
        change(element);
        if let Kind::Block(inner) = &mut element.kind {
            each(inner, change);
        }
    }
}

pub(super) fn body(element: &mut Element) -> Option<&mut Semantics> {
    match &mut element.kind {
        Kind::Action(body) | Kind::Predicate(body) => Some(body),
        _ => None,
    }
}

pub(super) fn element(id: u32, kind: Kind) -> Element {
    Element {
        id,
        carried: 0,
        quantifier: 0,
        label: None,
        options: Vec::new(),
        kind,
    }
}

pub(super) fn call(id: u32, name: u32) -> Element {
    let kind = Kind::Call {
        name,
        arguments: 0,
        precedence: 0,
    };
    element(id, kind)
}

pub(super) fn alternative(id: u32, elements: Vec<Element>) -> Alternative {
    Alternative {
        id,
        elements,
        ..Alternative::default()
    }
}

/// All cycles that are declined.
static DECLINED: LazyLock<Vec<Case>> = LazyLock::new(|| {
    let mut cases = Vec::new();
    for Grammar { sheet, .. } in grammars(2) {
        for reading in READINGS {
            for cycle in cycles(&sheet.bytes(), reading).expect("a sheet") {
                cases.extend(found(&sheet, &cycle.members, reading).map(|found| Case {
                    sheet: sheet.clone(),
                    members: cycle.members,
                    reading,
                    found,
                }));
            }
        }
    }
    cases
});

/// Tests the cycles that are declined by one of these clauses. A change that makes another cycle tests nothing; of how many the test
/// was for there is a least number.
pub(super) fn tried(clauses: &[u32], least: usize, test: impl Fn(&Case) -> Option<()>) {
    let cases = DECLINED.iter();
    let cases = cases.filter(|case| clauses.contains(&case.found.clause));
    let tests: Vec<Option<()>> = cases.map(test).collect();
    let count = tests.iter().flatten().count();
    assert!(count >= least, "{count} of {}", tests.len());
}
