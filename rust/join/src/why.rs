//! Why a cycle is declined: the planner's way through it (SPECIFICATION 7 to 10) gone once more, up to the place at which
//! it is turned back. What is found is told only where its clause is the one that the library gives.

mod corners;
mod judged;
mod loops;
mod names;
mod steps;
#[cfg(test)]
mod tests;

use std::collections::BTreeSet;

use mutual_recursion::Reading;
use notation::{Alternative, Kind, Node, Rule, Sheet, alternatives};

use crate::ends::Ends;

/// The least budget (SPECIFICATION 8.10).
const LEAST_BUDGET: usize = 64;

/// The place and the one cause.
#[derive(Clone, Debug, Default, Eq, PartialEq)]
pub struct Found {
    pub clause: u32,
    pub how: String,
    /// The hub's alternative that was being worked on, the one it was last filled from, and the element, by their ids.
    pub slot: Option<u32>,
    pub origin: Option<u32>,
    pub element: Option<u32>,
}

impl Found {
    fn of(clause: u32, how: impl Into<String>) -> Found {
        Found {
            clause,
            how: how.into(),
            ..Found::default()
        }
    }

    fn at_element(mut self, id: u32) -> Found {
        self.element = Some(id);
        self
    }
}

/// A cycle of a grammar, and what is known of its rules.
struct Cycle<'a> {
    sheet: &'a Sheet,
    members: Vec<&'a Rule>,
    ends: Ends,
    reading: Reading,
    name: &'a dyn Fn(u32) -> String,
}

/// Why the cycle with these members is declined; nothing where by this way it is not.
pub fn why(
    sheet: &Sheet,
    members: &[u32],
    reading: Reading,
    name: &dyn Fn(u32) -> String,
) -> Option<Found> {
    let cycle = Cycle::of(sheet, members, reading, name);
    let Some(hub) = cycle.hub() else {
        let how = "every alternative of each of them begins with a call of one of them, or of a rule that can be empty";
        return Some(Found::of(1, how));
    };
    if hub.flags % 2 == 1 {
        let how = format!(
            "`{}`, which would take the others in, has arguments",
            name(hub.name)
        );
        return Some(Found::of(2, how));
    }
    let mut satellites = cycle.members.iter().filter(|rule| rule.id != hub.id);
    if let Some(found) = satellites.find_map(|rule| cycle.not_inlinable(rule)) {
        return Some(found);
    }
    cycle.substituted(hub)
}

/// The rule that would take the others in.
pub fn hub_of(sheet: &Sheet, members: &[u32]) -> Option<u32> {
    let cycle = Cycle::of(sheet, members, Reading::Original, &|_| String::new());
    cycle.hub().map(|rule| rule.id)
}

impl<'a> Cycle<'a> {
    fn of(
        sheet: &'a Sheet,
        ids: &[u32],
        reading: Reading,
        name: &'a dyn Fn(u32) -> String,
    ) -> Cycle<'a> {
        let rule = |id: &u32| sheet.rules.iter().find(|rule| rule.id == *id);
        Cycle {
            sheet,
            members: ids.iter().filter_map(rule).collect(),
            ends: Ends::of(sheet),
            reading,
            name,
        }
    }

    fn member(&self, name: u32) -> Option<&'a Rule> {
        self.members.iter().find(|rule| rule.name == name).copied()
    }

    /// SPECIFICATION 7.1 to 7.3.
    fn hub(&self) -> Option<&'a Rule> {
        let candidates: Vec<&Rule> = self
            .members
            .iter()
            .filter(|rule| {
                rule.alternatives
                    .iter()
                    .any(|own| self.settled_outside(own))
            })
            .copied()
            .collect();
        let called = self.called_from_outside();
        let is_needed =
            |rule: &&&Rule| self.sheet.preserved.contains(&rule.id) || called.contains(&rule.name);
        let needed = candidates.iter().find(is_needed);
        needed.or(candidates.first()).copied()
    }

    fn settled_outside(&self, own: &Alternative) -> bool {
        let first = own
            .elements
            .iter()
            .find(|element| !is_silent(&element.kind));
        match first.map(|element| &element.kind) {
            Some(Kind::Call { name, .. }) => {
                let is_rule = self.sheet.rules.iter().any(|rule| rule.name == *name);
                self.member(*name).is_none() && !(is_rule && self.ends.is_empty(*name))
            }
            _ => true,
        }
    }

    fn called_from_outside(&self) -> BTreeSet<u32> {
        let mut called = BTreeSet::new();
        let inside = |rule: &&Rule| self.member(rule.name).is_some();
        for rule in self.sheet.rules.iter().filter(|rule| !inside(rule)) {
            alternatives(&rule.alternatives, &mut |node| {
                if let Node::Element(_, own) = node
                    && let Kind::Call { name, .. } = own.kind
                {
                    called.insert(name);
                }
            });
        }
        called
    }

    /// SPECIFICATION 7.5.
    fn not_inlinable(&self, rule: &Rule) -> Option<Found> {
        let name = (self.name)(rule.name);
        if rule.flags != 0 {
            let how = match rule.flags {
                1 => "has arguments",
                _ => "has something of its own (`!2`), such as `returns`, `locals` or `@init`",
            };
            return Some(Found::of(3, format!("`{name}` {how}")));
        }
        if let Some(own) = rule.alternatives.iter().find(|own| own.labelled) {
            let how = format!("an alternative of `{name}` is labelled (`#`)");
            let mut found = Found::of(3, how);
            found.origin = Some(own.id);
            return Some(found);
        }
        let mut body = None;
        alternatives(&rule.alternatives, &mut |node| {
            if let Node::Element(_, own) = node
                && matches!(own.kind, Kind::Action(_) | Kind::Predicate(_))
            {
                body.get_or_insert(own);
            }
        });
        let own = body?;
        let what = match own.kind {
            Kind::Action(_) => "an action",
            _ => "a predicate",
        };
        Some(Found::of(3, format!("{what} stands in `{name}`")).at_element(own.id))
    }
}

/// Epsilon, actions and predicates, whatever their quantifier.
fn is_silent(kind: &Kind) -> bool {
    matches!(kind, Kind::Epsilon | Kind::Action(_) | Kind::Predicate(_))
}
