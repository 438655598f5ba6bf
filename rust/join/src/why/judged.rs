//! The test of the planned list (SPECIFICATION 9).

use notation::{Element, Kind, Rule};

use super::steps::Planned;
use super::{Cycle, Found, is_silent};

impl Cycle<'_> {
    pub(super) fn judged(&self, hub: &Rule, list: &[Planned]) -> Option<Found> {
        let found = list.iter().find_map(|own| self.unfit(hub, own));
        if found.is_some() {
            return found;
        }
        let name = (self.name)(hub.name);
        let first = |own: &Planned| {
            own.elements
                .first()
                .is_some_and(|element| is_call(element, hub))
        };
        let how = match (list.iter().any(first), list.iter().all(first)) {
            (true, false) => return None,
            (false, _) => format!("no alternative would begin with the call of `{name}`"),
            _ => format!("every alternative would begin with the call of `{name}`"),
        };
        Some(Found::of(11, how))
    }

    fn unfit(&self, hub: &Rule, own: &Planned) -> Option<Found> {
        let name = (self.name)(hub.name);
        let passes = |element: &&Element| {
            is_call(element, hub)
                && matches!(element.kind, Kind::Call { arguments, .. } if arguments != 0)
        };
        if let Some(element) = own.elements.iter().find(passes) {
            let how = format!("the alternative would pass arguments to `{name}`");
            return Some(own.found(11, how).at_element(element.id));
        }
        if own.elements.iter().all(|element| is_silent(&element.kind)) {
            let how =
                "the alternative would have nothing in it but epsilon, actions and predicates";
            return Some(own.found(11, how.to_owned()));
        }
        let (first, behind) = own.elements.split_first()?;
        if is_call(first, hub) {
            let is_empty = behind.iter().all(|element| self.ends.can_be_empty(element));
            let how =
                format!("all that would stand behind the call of `{name}` in front can be empty");
            return is_empty.then(|| own.found(11, how).at_element(first.id));
        }
        let (corner, element) = self.corner_within(&own.elements)?;
        let how = format!(
            "the alternative would begin with `{}` of the cycle, behind something that can be empty or in a block",
            (self.name)(corner)
        );
        Some(own.found(11, how).at_element(element))
    }
}

fn is_call(own: &Element, rule: &Rule) -> bool {
    own.quantifier == 0 && matches!(own.kind, Kind::Call { name, .. } if name == rule.name)
}
