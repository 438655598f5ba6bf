//! Rules by which a substitution has no end (SPECIFICATION 8.10).

use std::collections::{BTreeMap, BTreeSet};

use notation::{Alternative, Kind, Rule};

use super::{Cycle, Found, is_silent};

/// Of each rule of the cycle, by id, those that are put in its place in front, and then in theirs.
type Begun = BTreeMap<u32, BTreeSet<u32>>;

impl Cycle<'_> {
    /// Which rules begin with themselves, of those that the hub comes to begin with.
    pub(super) fn beyond(&self, hub: &Rule, budget: usize) -> Found {
        let begun = self.begun(hub);
        let reached = &begun[&hub.id];
        let loops =
            |rule: &&&Rule| reached.contains(&rule.id) && begun[&rule.id].contains(&rule.id);
        let looping: Vec<String> = self
            .members
            .iter()
            .filter(loops)
            .map(|rule| format!("`{}`", (self.name)(rule.name)))
            .collect();
        let how = match &looping[..] {
            [] => format!("over {budget} steps are needed"),
            [one] => format!("{one} begins with itself, so that over {budget} steps are needed"),
            more => format!(
                "{} begin with each other without `{}`, so that over {budget} steps are needed",
                more.join(", "),
                (self.name)(hub.name)
            ),
        };
        Found::of(4, how)
    }

    fn begun(&self, hub: &Rule) -> Begun {
        let vanishing = self.vanishing(hub);
        let of_rule = |rule: &&Rule| {
            let own = rule.alternatives.iter();
            let firsts = own.flat_map(|own| self.firsts(own, hub, &vanishing).0);
            (rule.id, firsts.collect())
        };
        let mut begun: Begun = self.members.iter().map(of_rule).collect();
        for _ in &self.members {
            let before = begun.clone();
            for own in begun.values_mut() {
                let further = own.iter().flat_map(|id| before[id].clone());
                own.append(&mut further.collect());
            }
        }
        begun
    }

    /// The satellites that can come to be in front of an alternative, and whether nothing but what is silent may be left of it.
    fn firsts(&self, own: &Alternative, hub: &Rule, vanishing: &BTreeSet<u32>) -> (Vec<u32>, bool) {
        let mut firsts = Vec::new();
        for element in &own.elements {
            if is_silent(&element.kind) {
                continue;
            }
            let called = match element.kind {
                Kind::Call { name, .. } => self.member(name),
                _ => None,
            };
            let Some(rule) = called.filter(|_| element.quantifier <= 1) else {
                return (firsts, false);
            };
            if rule.id != hub.id {
                firsts.push(rule.id);
            }
            if element.quantifier == 0 && !vanishing.contains(&rule.id) {
                return (firsts, false);
            }
        }
        (firsts, true)
    }

    /// The satellites of which nothing but what is silent may be left where they are put in.
    fn vanishing(&self, hub: &Rule) -> BTreeSet<u32> {
        let mut vanishing = BTreeSet::new();
        for _ in &self.members {
            let all = self.members.iter().filter(|rule| rule.id != hub.id);
            let more = all.filter(|rule| {
                let mut own = rule.alternatives.iter();
                own.any(|own| self.firsts(own, hub, &vanishing).1)
            });
            vanishing = more.map(|rule| rule.id).collect();
        }
        vanishing
    }
}
