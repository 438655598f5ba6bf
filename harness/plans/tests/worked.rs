//! Decisions on small grammars, one for each thing that a planner may get wrong.

use plans::judge::judged;
use sheets::codec::{bytes_of, encode};
use sheets::names::{Names, Place};
use sheets::parse::parse;
use sheets::tree::{Element, Kind, Sheet};
use traced::{Decision, Plan};

/// The decision for the only cycle, in both readings; a plan as `hub steps: alternatives; rules that go`.
fn decision(grammar: &str) -> String {
    let (tree, names) = parse(grammar).expect("the notation");
    let [one, other] = judged(&bytes_of(&encode(&tree))).expect("a good sheet");
    assert_eq!(one.cycles, other.cycles, "{grammar}");
    assert_eq!(one.cycles.len(), 1, "{grammar}");
    match &one.cycles[0].1 {
        Decision::Declined(clause) => format!("clause {clause}"),
        Decision::Overfull(_) => "7".to_owned(),
        Decision::Planned(plan) => told(plan, &tree, &names),
    }
}

fn told(plan: &Plan, tree: &Sheet, names: &Names) -> String {
    let text = |name, place| names.text(name, place).expect("a name").to_owned();
    let rule = |id: u32| {
        let rule = tree.rules.iter().find(|rule| rule.id == id);
        text(rule.expect("a rule").name, Place::Rule)
    };
    let outermost = tree.rules.iter().flat_map(|rule| &rule.alternatives);
    let all: Vec<&Element> = outermost.flat_map(|own| &own.elements).collect();
    let element = |(id, quantifier): &(u32, u32)| {
        let own = all.iter().find(|own| own.id == *id).expect("an element");
        let name = match &own.kind {
            Kind::Call { name, .. } => text(*name, Place::Rule),
            Kind::Token(name) => text(*name, Place::Token),
            Kind::Block(_) => "( )".to_owned(),
            _ => "_".to_owned(),
        };
        name + ["", "?", "??", "*", "*?", "+", "+?"][*quantifier as usize]
    };
    let alternatives = plan.alternatives.iter().map(|own| {
        let options = own.options.iter().map(|own| format!("<{}> ", own.value));
        let elements: Vec<String> = own.elements.iter().map(element).collect();
        options.collect::<String>() + &elements.join(" ")
    });
    let alternatives: Vec<String> = alternatives.collect();
    let gone: Vec<String> = plan.removable.iter().map(|id| rule(*id)).collect();
    let (hub, steps) = (rule(plan.hub), plan.steps);
    let all = format!(
        "{hub} {steps}: {}; {}",
        alternatives.join(" | "),
        gone.join(" ")
    );
    all.trim_end().to_owned()
}

const DECIDED: [[&str; 2]; 21] = [
    [
        "e: a | INT; a: e PLUS | e MINUS;",
        "e 1: e PLUS | e MINUS | INT; a",
    ],
    [
        "e: a | INT; a: s PLUS | e MINUS; s: e DOTS | e NAME;",
        "e 2: e DOTS PLUS | e NAME PLUS | e MINUS | INT; a s",
    ],
    [
        "e: a? DOTS | a | INT; a: e PLUS;",
        "e 3: e PLUS DOTS | DOTS | e PLUS | INT; a",
    ],
    ["e: a?? DOTS | a | INT; a: e PLUS;", "clause 6"],
    [
        "e: e PLUS | a | INT; a: e MINUS;",
        "e 1: e PLUS | e MINUS | INT; a",
    ],
    [
        "e: a | n DOTS; a: e PLUS | INT; n: ;",
        "a 1: a PLUS | n DOTS PLUS | INT; e",
    ],
    [
        "e: a | INT; a: e PLUS | NAME; s: a;",
        "a 1: a PLUS | INT PLUS | NAME; e",
    ],
    [
        "e: <o=1,o=2> a | INT; a: <o=1> e PLUS;",
        "e 1: <1> <2> e PLUS | INT; a",
    ],
    ["e: <o=1,o=2> a | INT; a: <o=2> e PLUS;", "clause 9"],
    ["e: a (x=INT) | INT; a: e x=PLUS;", "clause 7"],
    ["e: a x=INT | INT; a: e (x=PLUS);", "clause 7"],
    ["e: a ({$PLUS}) | INT; a: e (PLUS);", "clause 8"],
    [
        "e: a {$PLUS::x} | INT; a: e PLUS;",
        "e 1: e PLUS _ | INT; a",
    ],
    ["e: a {$a::x} | INT; a: e PLUS;", "clause 5"],
    ["e: a | INT; a: e n PLUS; n: ;", "e 1: e n PLUS | INT; a"],
    [
        "e: e? DOTS | a | INT; a: e PLUS;",
        "e 2: e DOTS | DOTS | e PLUS | INT; a",
    ],
    ["e: a a | INT; a: e PLUS;", "e 1: e PLUS a | INT;"],
    [
        "%preserve a; e: a | INT; a: s PLUS; s: t MINUS; t: e DOTS;",
        "e 3: e DOTS MINUS PLUS | INT;",
    ],
    ["e: a | a PLUS; a: e MINUS;", "clause 1"],
    ["e!1: a | INT; a: e MINUS;", "clause 2"],
    ["e: a | INT; a!2: e MINUS;", "clause 3"],
];

#[test]
fn small_grammars_are_decided_as_the_specification_says() {
    for [grammar, expected] in DECIDED {
        assert_eq!(decision(grammar), expected, "{grammar}");
    }
}

#[test]
fn the_64th_step_is_made_and_the_65th_declined() {
    let optional = "a? ".repeat(32);
    let planned = decision(&format!("e: {optional} DOTS | INT; a: e PLUS;"));
    assert!(planned.starts_with("e 64: e PLUS a? a? "), "{planned}");
    let declined = decision(&format!("e: {optional} DOTS | a | INT; a: e PLUS;"));
    assert_eq!(declined, "clause 4");
}

#[test]
fn seven_comes_behind_the_declines_of_its_step_and_not_without_a_step() {
    let (tail, many) = (". ".repeat(90), "e | ".repeat(91));
    let stopped = format!("e: <o=1> a {tail} | INT; a: {many} <o=1> e;");
    assert_eq!(decision(&stopped), "7");
    let declined = format!("e: <o=1> a {tail} | INT; a: {many} <o=2> e;");
    assert_eq!(decision(&declined), "clause 9");

    let empty = "| ".repeat(1_024);
    assert_eq!(decision(&format!("e: a {empty}; a: e PLUS;")), "7");
    assert_eq!(
        decision(&format!("e: (a) {empty}; a: e PLUS;")),
        "clause 10"
    );
}
