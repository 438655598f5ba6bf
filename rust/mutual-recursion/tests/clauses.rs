//! Each part of a clause's sentence is so: beside it stands a grammar that is declined for it.

mod common;

use std::collections::HashMap;

use common::{
    FAR, Stored, alternative, by_name, covers, element, paragraphs, rule, sheet, stored, token,
};
use mutual_recursion::{Clause, Decision, Reading, cycles};

/// Each part of a clause's sentence with a grammar that it declines; the part in front of the colon is the specification's.
const CLAUSES: [(Clause, &[(&str, &str)]); 11] = [
    (
        Clause::NoHub,
        &[
            (
                "every alternative of every member begins with a call of a member",
                "e: a X; a: e Y;",
            ),
            (
                "of a rule that can be empty",
                "e: n INT | a; a: e PLUS; n: ;",
            ),
        ],
    ),
    (
        Clause::HubWithArguments,
        &[(
            "the rule that would take the others in has arguments",
            "e !1: a | INT; a: e PLUS;",
        )],
    ),
    (
        Clause::SatelliteNotInlinable,
        &[
            ("it has arguments", "e: a | INT; a !1: e PLUS;"),
            ("something else of its own", "e: a | INT; a !2: e PLUS;"),
            ("a labelled alternative", "e: a | INT; a: # e PLUS;"),
            ("an action", "e: a | INT; a: e PLUS {};"),
            ("predicate in it", "e: a | INT; a: e PLUS ( X | &{} );"),
        ],
    ),
    (
        Clause::BeyondBudget,
        &[
            (
                "the substitution does not end within 64 steps",
                "e: a | INT; a: a PLUS | e MINUS;",
            ),
            // in `budgets`
            (
                "the square of the number of the members' alternatives where that is more",
                "",
            ),
        ],
    ),
    (
        Clause::DanglingReference,
        &[
            ("an action", "e: a {$a} | INT; a: e PLUS;"),
            // in `predicates_refer_too`
            (
                "predicate beside a call that would be replaced refers to the called rule",
                "",
            ),
        ],
    ),
    (
        Clause::BlockedCorner,
        &[
            ("an alternative begins with a call of a member that has", ""),
            ("a label", "e: x=a | INT; a: e PLUS;"),
            ("arguments", "e: a[5] | INT; a: e PLUS;"),
            ("options", "e: a<o=1> | INT; a: e PLUS;"),
            (
                "a quantifier other than one and greedy optional",
                "e: a* X | INT; a: e PLUS;",
            ),
        ],
    ),
    (
        Clause::LabelCollision,
        &[(
            "the spliced elements and the others have labels of one name",
            "e: a ( x=INT ) | INT; a: e x=PLUS;",
        )],
    ),
    (
        Clause::BindingCollision,
        &[(
            "of the spliced elements and the others one refers to a name that the other binds",
            "e: a {$PLUS} | INT; a: e PLUS;",
        )],
    ),
    (
        Clause::OptionCollision,
        &[(
            "an option that is spliced in has another value than the first of its name",
            "e: <o=1> a | INT; a: <o=2> e PLUS;",
        )],
    ),
    (
        Clause::NoSteps,
        &[(
            "no alternative of the hub begins with a call that would be replaced",
            "e: (a) X | INT; a: e PLUS;",
        )],
    ),
    (
        Clause::NotRewritable,
        &[
            ("an alternative of the planned list", ""),
            ("passes arguments to the hub", "e: a | INT; a: e PLUS e[5];"),
            (
                "has nothing but epsilon, actions and predicates",
                "e: a | _; a: e PLUS;",
            ),
            (
                "has nothing behind the hub's call that cannot be empty",
                "e: a | INT; a: e n; n: N?;",
            ),
            (
                "has another left corner in the cycle",
                "e: a | INT; a: e PLUS | (NAME)? e MINUS;",
            ),
        ],
    ),
];

#[test]
fn clauses() {
    let all: HashMap<String, Stored> = stored()
        .into_iter()
        .map(|record| (record.grammar.clone(), record))
        .collect();
    for (clause, parts) in CLAUSES {
        let text = clause.to_string();
        let (_, sentence) = text
            .split_once(": ")
            .expect("what the specification calls it");
        covers(
            sentence,
            &parts.iter().map(|(part, _)| *part).collect::<Vec<_>>(),
        );
        for (part, grammar) in parts.iter().filter(|(_, grammar)| !grammar.is_empty()) {
            let record = all
                .get(*grammar)
                .unwrap_or_else(|| panic!("no grammar '{grammar}'"));
            let found = cycles(&record.sheet, Reading::Original).expect("a sheet");
            assert_eq!(found[0].decision, Decision::Declined(clause), "{part}");
        }
    }
}

fn first_decision(sheet: &[u8]) -> Decision {
    cycles(sheet, Reading::Original)
        .expect("a sheet")
        .remove(0)
        .decision
}

/// With nine alternatives the budget is 81: 65 steps are made, and a loop that does not grow is declined.
#[test]
fn budgets() {
    let Decision::Planned(plan) = first_decision(&by_name()["65 steps of 81"].sheet) else {
        panic!("no plan")
    };
    assert_eq!(plan.steps, 65);
    let call = |id: u32, name: u32| element(id, 3, [0, 0], &[name, 0, 0]);
    let other = |id: u32| alternative(id, &[token(id)]);
    let hub = rule(1, 1, &[alternative(0, &[call(0, 2)]), other(1)]);
    let mut loops = vec![
        alternative(2, &[call(2, 2)]),
        alternative(3, &[call(3, 1), token(4)]),
    ];
    loops.extend((5..10).map(other));
    let sheet = sheet(&[hub, rule(2, 2, &loops)], &[], FAR);
    assert_eq!(
        first_decision(&sheet),
        Decision::Declined(Clause::BeyondBudget)
    );
}

/// The action of `e: a {$a} | INT; a: e PLUS;` as a predicate.
#[test]
fn predicates_refer_too() {
    const KIND: usize = 4 * (4 + 5 + 9 + 2);
    let record = stored()
        .into_iter()
        .find(|own| own.grammar == "e: a {$a} | INT; a: e PLUS;");
    let mut sheet = record.expect("a stored grammar").sheet;
    assert_eq!(sheet[KIND], 1);
    sheet[KIND] = 2;
    let counter = sheet.len() - 4;
    sheet[counter] = 1;
    assert_eq!(
        first_decision(&sheet),
        Decision::Declined(Clause::DanglingReference)
    );
}

#[test]
fn clauses_are_called_as_in_the_specification() {
    let section = paragraphs(10);
    for clause in Clause::ALL {
        let number = clause.number();
        let text = clause.to_string();
        let (title, _) = text.split_once(": ").expect("a title");
        let start = format!("Clause {number}: {title}");
        assert!(section[&number].starts_with(&start), "{}", section[&number]);
        assert_eq!(Clause::of_number(number), Some(clause));
    }
    assert_eq!(
        section.keys().filter(|number| **number < 20).count(),
        Clause::ALL.len()
    );
    assert_eq!((Clause::of_number(0), Clause::of_number(12)), (None, None));
}
