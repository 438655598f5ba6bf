//! Left corners in both readings (SPECIFICATION 6.5, 14).

use mutual_recursion::Reading;
use notation::{Element, Kind};

use super::Cycle;

impl Cycle<'_> {
    /// The first left corner in the cycle: its name and the outermost element in which it stands.
    pub(super) fn corner_within(&self, elements: &[Element]) -> Option<(u32, u32)> {
        for own in elements {
            if let Some(name) = self.corner_of(own) {
                return Some((name, own.id));
            }
            if self.ends_search(own) {
                return None;
            }
        }
        None
    }

    fn corner_of(&self, own: &Element) -> Option<u32> {
        match &own.kind {
            Kind::Call { name, .. } => self.member(*name).map(|rule| rule.name),
            Kind::Block(inner) => {
                let mut corners = inner
                    .iter()
                    .filter_map(|own| self.corner_within(&own.elements));
                corners.next().map(|(name, _)| name)
            }
            _ => None,
        }
    }

    fn ends_search(&self, own: &Element) -> bool {
        let is_symbol = match own.kind {
            Kind::Token(_) | Kind::Other => true,
            Kind::Call { name, .. } => !self.sheet.rules.iter().any(|rule| rule.name == name),
            _ => false,
        };
        !self.ends.can_be_empty(own) || (is_symbol && self.reading == Reading::Original)
    }
}
