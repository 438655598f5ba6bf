//! The cause that is told is one: with all else mended the library declines for it, and without it not.

use notation::{Alternative, Element, Kind};

use super::cases::{ID, NAME, body, each, element, tried};
use super::found;
use crate::why::Found;

/// 3: with all else mended that keeps satellites from being inlined it is declined so; with what is told mended too it is not.
#[test]
fn a_satellite_cannot_be_inlined() {
    tried(&[3], 500, |case| {
        let (
            Found {
                origin, element, ..
            },
            names,
        ) = (&case.found, case.names());
        let of_flags = origin.is_none() && element.is_none();
        let mended = |is_told: bool| {
            case.with_rules(|rule| {
                if rule.id == case.hub().id {
                    return;
                }
                if !(is_told && of_flags && rule.name == names[0]) {
                    rule.flags = 0;
                }
                for own in &mut rule.alternatives {
                    own.labelled &= is_told && *origin == Some(own.id);
                }
                each(&mut rule.alternatives, &|own| {
                    if body(own).is_some() && !(is_told && *element == Some(own.id)) {
                        own.kind = Kind::Epsilon;
                    }
                });
            })
        };
        assert_eq!(case.clause(mended(true))?, 3, "{:?}", case.found);
        assert_ne!(case.clause(mended(false))?, 3, "{:?}", case.found);
        Some(())
    });
}

/// 5: the references of the body that is told, to the name that is told, are enough.
#[test]
fn a_reference_dangles() {
    tried(&[5], 50, |case| {
        let (told, name) = (case.found.element.expect("a body"), case.names()[0]);
        assert!(case.is_member(name));
        let only = case.with_elements(|own| {
            let is_told = own.id == told;
            if let Some(body) = body(own) {
                body.references.retain(|own| is_told && own.name == name);
            }
        });
        assert_eq!(case.clause(only)?, 5, "{:?}", case.found);
        Some(())
    });
}

/// 6: one call of a member that is not bare is enough, and it has what is told of it alone.
#[test]
fn a_corner_is_blocked() {
    tried(&[6], 500, |case| {
        let told = case.found.element.expect("a call");
        let how = |what: &str| case.found.how.ends_with(what);
        let only = case.with_elements(|own| {
            let keeps = |what: &str| own.id == told && how(what);
            let (label, options) = (keeps("a label"), keeps("options"));
            let (arguments, quantifier) = (keeps("arguments"), keeps("than `?`"));
            if let Kind::Call {
                name,
                arguments: own_arguments,
                ..
            } = &mut own.kind
                && case.is_member(*name)
            {
                *own_arguments *= u32::from(arguments);
                own.label = own.label.filter(|_| label);
                own.options.retain(|_| options);
                if !quantifier {
                    own.quantifier = u32::from((1..=4).contains(&own.quantifier));
                }
            }
        });
        assert_eq!(case.clause(only)?, 6, "{:?}", case.found);
        Some(())
    });
}

/// 7 to 9: each of the names that are told is enough.
#[test]
fn names_collide() {
    tried(&[7, 8, 9], 500, |case| {
        for name in case.names() {
            let only = match case.found.clause {
                7 => case.with_elements(|own| own.label = own.label.filter(|own| own.name == name)),
                8 => case.with_elements(|own| {
                    if let Some(body) = body(own) {
                        body.references.retain(|own| own.name == name);
                    }
                }),
                _ => case.with_rules(|rule| {
                    for own in &mut rule.alternatives {
                        own.options.retain(|own| own.name == name);
                    }
                }),
            };
            assert_eq!(case.clause(only)?, case.found.clause, "{:?}", case.found);
        }
        (!case.names().is_empty()).then_some(())
    });
}

/// 7 to 9: without these names in the alternative that would be put in, that is told no more. Of 8 they are those of tokens and
/// labels there, since no action stands in what is put in.
#[test]
fn what_is_put_in_collides() {
    tried(&[7, 8, 9], 300, |case| {
        let (names, told) = (case.names(), case.found.origin.expect("one that is put in"));
        let is_rule = |name: &u32| case.sheet.rules.iter().any(|rule| rule.name == *name);
        (case.found.clause != 8 || !names.iter().any(is_rule)).then_some(())?;
        let mended = case.with_rules(|rule| {
            for own in rule.alternatives.iter_mut().filter(|own| own.id == told) {
                own.options.retain(|own| !names.contains(&own.name));
                each(std::slice::from_mut(own), &|own| {
                    own.label = own.label.filter(|own| !names.contains(&own.name));
                    if matches!(own.kind, Kind::Token(name) if names.contains(&name)) {
                        own.kind = Kind::Token(NAME);
                    }
                });
            }
        });
        let after = found(&mended, &case.members, case.reading);
        assert_ne!(after.as_ref(), Some(&case.found));
        let clause = after.map_or(0, |found| found.clause);
        assert_eq!(case.clause(mended)?, clause, "{:?}", case.found);
        Some(())
    });
}

/// 4: where a token stands in front of each call of a rule that is told, in these rules, the substitution ends.
#[test]
fn a_rule_begins_with_itself() {
    tried(&[4], 100, |case| {
        let mut names = case.names();
        names.retain(|name| *name != case.hub().name);
        assert!(!names.is_empty(), "{:?}", case.found);
        let is_told =
            |own: &Element| matches!(own.kind, Kind::Call { name, .. } if names.contains(&name));
        let mended = case.with_rules(|rule| {
            let calls = |own: &&mut Alternative| own.elements.iter().any(is_told);
            let own = rule.alternatives.iter_mut().filter(calls);
            own.filter(|_| names.contains(&rule.name)).for_each(|own| {
                own.elements
                    .insert(0, element(ID + own.id, Kind::Token(NAME)))
            });
        });
        assert_ne!(case.clause(mended)?, 4, "{:?}", case.found);
        Some(())
    });
}
