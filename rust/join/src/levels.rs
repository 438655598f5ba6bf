//! How the alternatives of a rule that calls itself bind, by ANTLR's rule, and where that is not what the slots suggest.

use std::fmt;

use notation::{Alternative, Kind, Place, Printer, Rule, Style};

use crate::answer::Answer;
use crate::ends::{Ends, Last, is_nothing, is_plain_call};

/// What an alternative of a rule begins and ends with: the rule's own plain call, or something else.
#[derive(Clone, Copy, Debug, Eq, PartialEq)]
pub enum Form {
    Binary,
    /// It only begins so.
    Suffix,
    /// It only ends so.
    Prefix,
    Primary,
}

impl fmt::Display for Form {
    fn fmt(&self, out: &mut fmt::Formatter) -> fmt::Result {
        out.write_str(match self {
            Form::Binary => "binary",
            Form::Suffix => "suffix",
            Form::Prefix => "prefix",
            Form::Primary => "primary",
        })
    }
}

/// Of an alternative of the rule of this name.
pub fn form(own: &Alternative, rule: u32) -> Form {
    let is_own = |place: usize| {
        let element = &own.elements[place];
        is_plain_call(element) && matches!(element.kind, Kind::Call { name, .. } if name == rule)
    };
    let last = own
        .elements
        .iter()
        .rposition(|element| !is_nothing(element));
    match last {
        None => Form::Primary,
        Some(last) => match (is_own(0), last > 0 && is_own(last)) {
            (true, true) => Form::Binary,
            (true, false) => Form::Suffix,
            (false, true) => Form::Prefix,
            (false, false) => Form::Primary,
        },
    }
}

/// Of so many alternatives the one at this place, from 0 on, has this level; the higher binds tighter.
pub fn level(rule: &Rule, place: usize) -> usize {
    rule.alternatives.len() - place
}

/// What is said of some alternatives of a joined rule.
#[derive(Clone, Debug)]
pub struct Remark {
    pub text: String,
    /// That phrases may group otherwise than the slots suggest.
    pub is_warning: bool,
    /// The ids of the alternatives.
    pub about: Vec<u32>,
}

/// Of all joined rules, in their order.
pub fn remarks(answer: &Answer) -> Vec<Remark> {
    let ends = Ends::of(&answer.after.sheet);
    let rules = answer.after.sheet.rules.iter();
    let hubs = rules.filter(|rule| answer.hubs.contains(&rule.id));
    let of_rule = |rule| Looking::of(answer, &ends, rule).remarks();
    hubs.flat_map(of_rule).collect()
}

/// A joined rule that is looked at.
struct Looking<'a> {
    answer: &'a Answer,
    ends: &'a Ends,
    rule: &'a Rule,
    printer: Printer<'a>,
}

impl<'a> Looking<'a> {
    fn of(answer: &'a Answer, ends: &'a Ends, rule: &'a Rule) -> Self {
        let printer = Printer::of(&answer.after, Style::Plain);
        Looking {
            answer,
            ends,
            rule,
            printer,
        }
    }

    fn name(&self, number: u32) -> String {
        self.printer.name(number, Place::Rule)
    }

    fn remarks(&self) -> Vec<Remark> {
        let mut found = self.shared_slots();
        for (place, own) in self.rule.alternatives.iter().enumerate() {
            let form = form(own, self.rule.name);
            for last in self.ends.lasts(own) {
                let leads = last.element == 0 && matches!(form, Form::Binary | Form::Suffix);
                if !leads {
                    found.extend(self.unreached(level(self.rule, place), own, last));
                }
            }
        }
        found.dedup_by(|one, two| one.text == two.text);
        found
    }

    /// Slots that several alternatives fill, one after the other.
    fn shared_slots(&self) -> Vec<Remark> {
        let slot = |own: &Alternative| self.answer.slots[&own.id];
        let groups = self
            .rule
            .alternatives
            .chunk_by(|one, two| slot(one) == slot(two));
        let mut place = 0;
        let mut found = Vec::new();
        for group in groups {
            if group.len() > 1 {
                found.push(self.shared_slot(self.answer.tell(slot(&group[0])), place, group));
            }
            place += group.len();
        }
        found
    }

    fn shared_slot(&self, slot: &str, place: usize, group: &[Alternative]) -> Remark {
        let name = self.name(self.rule.name);
        let (first, last) = (
            level(self.rule, place),
            level(self.rule, place + group.len() - 1),
        );
        let operators = group
            .iter()
            .filter(|own| form(own, self.rule.name) != Form::Primary);
        let is_warning = operators.count() > 1;
        let count = group.len();
        let front =
            format!("slot {slot} is filled by {count} alternatives, levels {first} to {last}");
        let text = match is_warning {
            true => format!(
                "{front}: each is a level of its own, so that of these the earlier ones bind tighter; to have them on one \
                 level write them as one alternative, with a block for what differs, as in `{name} ( X | Y ) {name}`"
            ),
            false => format!(
                "{front}: at most one of them is an operator, so that what binds tighter is still told by the order of slots"
            ),
        };
        Remark {
            text,
            is_warning,
            about: group.iter().map(|own| own.id).collect(),
        }
    }

    /// A call at the end that leads back to the rule, and that no level reaches.
    fn unreached(&self, level: usize, own: &Alternative, last: Last) -> Option<Remark> {
        let name = self.name(self.rule.name);
        let text = match last.name == self.rule.name {
            true if last.is_plain => return None,
            true => format!(
                "`{name}` at level {level} ends with a call of `{name}` that {}, so that no level reaches it and it takes all \
                 that follows; to have it bind by its level write an alternative of its own that ends with `{name}` alone",
                how(own, last)
            ),
            false => {
                let way = self.ends.way(last.name, self.rule.name)?;
                let names: Vec<String> = way
                    .iter()
                    .map(|number| format!("`{}`", self.name(*number)))
                    .collect();
                let called = &names[0];
                let which = match names.len() {
                    1 => format!("{called}, which"),
                    _ => format!("{called}, which by way of {}", names[1..].join(", ")),
                };
                format!(
                    "`{name}` at level {level} calls {which} ends with `{name}` and is not joined, so that no level reaches \
                     that call and it takes all that follows; to have it bind by its slot write the alternatives of {} in \
                     place of the call",
                    names.join(" and ")
                )
            }
        };
        Some(Remark {
            text,
            is_warning: true,
            about: vec![own.id],
        })
    }
}

/// Why no level reaches the rule's own call in this element.
fn how(own: &Alternative, last: Last) -> &'static str {
    let element = &own.elements[last.element];
    match element.kind {
        Kind::Block(_) => "stands in a block",
        _ if element.quantifier != 0 => "has a quantifier",
        Kind::Call { arguments, .. } if arguments != 0 => "has arguments",
        _ => "has something behind it that can be empty",
    }
}

#[cfg(test)]
mod tests {
    use super::*;

    #[test]
    fn forms() {
        let text = "e: e X e | x=e y=e {} | e X | e? e X e | e X e? | e X e Y? | X e _ | ( X ) e &{} | X ( e ) | X e* | X | e | {} | ;";
        let grammar = notation::parse(text).expect("the notation");
        let rule = &grammar.sheet.rules[0];
        let found: Vec<String> = rule
            .alternatives
            .iter()
            .map(|own| form(own, rule.name).to_string())
            .collect();
        let expected = "binary binary suffix prefix suffix suffix prefix prefix primary primary primary suffix primary primary";
        assert_eq!(found.join(" "), expected);
        assert_eq!((level(rule, 0), level(rule, 13)), (14, 1));
    }
}
