//! The names that elements bind and refer to, blocks included (SPECIFICATION 8.7).

use std::collections::BTreeSet;

use notation::{Element, Kind, Semantics};

#[derive(Default)]
pub(super) struct Named {
    pub labels: BTreeSet<u32>,
    /// Of labels, calls and tokens.
    pub bound: BTreeSet<u32>,
    /// By references of kind 0 and 1.
    pub referred: BTreeSet<u32>,
    /// The elements that are actions and predicates, with all names in them.
    bodies: Vec<(u32, Vec<u32>)>,
}

impl Named {
    pub(super) fn of(elements: &[Element]) -> Named {
        let mut named = Named::default();
        named.see(elements);
        named
    }

    fn see(&mut self, elements: &[Element]) {
        for own in elements {
            if let Some(label) = own.label {
                self.labels.insert(label.name);
                self.bound.insert(label.name);
            }
            match &own.kind {
                Kind::Call { name, .. } | Kind::Token(name) => drop(self.bound.insert(*name)),
                Kind::Action(body) | Kind::Predicate(body) => self.refer(own.id, body),
                Kind::Block(inner) => inner.iter().for_each(|own| self.see(&own.elements)),
                Kind::Epsilon | Kind::Other | Kind::EndOfInput => {}
            }
        }
    }

    fn refer(&mut self, element: u32, body: &Semantics) {
        let near = body.references.iter().filter(|own| own.kind != 2);
        self.referred.extend(near.map(|own| own.name));
        let all = body.references.iter().map(|own| own.name);
        self.bodies.push((element, all.collect()));
    }

    /// The first body that refers to a name in any way.
    pub(super) fn body_with(&self, name: u32) -> Option<u32> {
        let mut bodies = self.bodies.iter();
        let found = bodies.find(|(_, names)| names.contains(&name));
        found.map(|(element, _)| *element)
    }
}
