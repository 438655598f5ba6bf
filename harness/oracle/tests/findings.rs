//! The findings of docs/DIFFERENCES.md, by running them. Those on left corners
//! are in `demand3/tests/original.rs`.

use oracle::{Done, ask_sheet};
use sheets::parse::{parse, sheet};
use sheets::print::{Style, print};

fn done(grammar: &str) -> Done {
    ask_sheet(&sheet(grammar)).expect("no refusal")
}

/// The result's rules in one line, in the names of the grammar.
fn joined(grammar: &str) -> String {
    let (given, names) = parse(grammar).expect("the notation");
    let done = ask_sheet(&given).expect("no refusal");
    assert_eq!(done.plans(), 1, "{grammar}");
    print(&done.result, &names, Style::Plain)
        .replace('\n', " ")
        .trim_end()
        .to_owned()
}

/// The clause that stopped the only cycle of a grammar that stays as it is.
fn clause(grammar: &str) -> u32 {
    let done = done(grammar);
    assert_eq!((done.plans(), done.declined.len()), (0, 1), "{grammar}");
    assert_eq!(done.result, sheet(grammar));
    done.declined[0].clause
}

#[test]
fn a_block_in_front_counts_as_settled_outside_the_cycle() {
    // The hub is e, for its block, and then there is nothing to do.
    assert_eq!(clause("e: (a); a: e X | Y;"), 10);
    assert_eq!(clause("e: (a); a: b | .?; b: a e .;"), 10);
    assert_eq!(joined("e: a; a: e X | Y;"), "a: a X | Y;");
}

#[test]
fn an_alternative_without_anything_significant_counts_as_settled() {
    assert_eq!(clause("e: a X; a: e Y;"), 1);
    assert_eq!(clause("e: a X | _; a: e Y;"), 11);
}

#[test]
fn an_outside_rule_that_can_be_empty_hides_a_base() {
    // INT is derived, and yet no member has a base.
    assert_eq!(clause("e: n INT | a; a: e PLUS; n: ;"), 1);
    assert_eq!(
        joined("e: n INT | a; a: e PLUS; n: N;"),
        "e: n INT | e PLUS; n: N;"
    );
}

#[test]
fn options_clash_only_in_a_splice_and_with_the_first_of_the_name() {
    assert_eq!(
        joined("e: <o=1,o=2> a | INT; a: e PLUS;"),
        "e: <o=1,o=2> e PLUS | INT;"
    );
    assert_eq!(
        joined("e: <o=1,o=2> a | INT; a: <o=1> e PLUS;"),
        "e: <o=1,o=2> e PLUS | INT;"
    );
    assert_eq!(clause("e: <o=1,o=2> a | INT; a: <o=2> e PLUS;"), 9);
    assert_eq!(clause("e: a | INT; a: <o=1,o=2> e PLUS;"), 9);
}

#[test]
fn a_hub_that_can_be_empty_can_stay_in_a_cycle_of_the_same_size() {
    let grammar = "e: a | INT?; a: e a PLUS;";
    assert_eq!(joined(grammar), "e: e a PLUS | INT?; a: e a PLUS;");
    let done = done(grammar);
    assert_eq!(done.stages[0].cycle, [1, 2]);
    assert_eq!(done.declined[0].cycle, [1, 2]);
    assert_eq!(done.declined[0].clause, 10);
}

#[test]
fn a_joined_rule_can_be_a_member_of_a_cycle_replaced_later() {
    let done = done("%preserve k q; h: s | Z?; k: q | V?; s: h k Y; q: k h W;");
    let plans: Vec<(u32, &[u32])> = done
        .stages
        .iter()
        .map(|stage| (stage.hub, &stage.cycle[..]))
        .collect();
    assert_eq!(plans, [(2, &[1, 2, 3, 4][..]), (1, &[1, 2, 3][..])]);
}

#[test]
fn arguments_of_the_own_call_are_seen_only_outermost_and_plain() {
    assert_eq!(clause("e: a | INT; a: e PLUS e[5];"), 11);
    assert_eq!(
        joined("e: a | INT; a: e PLUS e[5]?;"),
        "e: e PLUS e[5]? | INT;"
    );
    assert_eq!(
        joined("e: a | INT; a: e PLUS ( e[5] );"),
        "e: e PLUS ( e[5] ) | INT;"
    );
}

#[test]
fn a_satellite_called_from_within_alone_is_kept_where_the_hub_still_calls_it() {
    assert_eq!(
        joined("e: a a | INT; a: e PLUS;"),
        "e: e PLUS a | INT; a: e PLUS;"
    );
    assert_eq!(joined("e: a | INT; a: e PLUS;"), "e: e PLUS | INT;");
}

#[test]
fn an_alternative_of_nothing_is_declined_though_the_hub_could_be_empty_before() {
    assert_eq!(clause("e: a | ; a: e PLUS;"), 11);
    assert_eq!(joined("e: a | INT?; a: e PLUS;"), "e: e PLUS | INT?;");
}

#[test]
fn modifiers_and_case_are_lost_with_a_satellite() {
    let given = sheet("e: a | INT; a: e PLUS;");
    let answer = original::run_with_modifiers(&given);
    assert!(answer.changed);
    assert_eq!(answer.result, done("e: a | INT; a: e PLUS;").result);
}

#[test]
fn applying_a_plan_can_fail() {
    let given = |counter: &str| sheet(&format!("%counters {counter} 99 0 0 0; e: a | X; a: e Y;"));
    assert_eq!(ask_sheet(&given("4294967295")).err(), Some(8));
    assert!(ask_sheet(&given("4294967294")).is_ok());
}

#[test]
fn end_of_input_counts_as_a_symbol_that_is_consumed() {
    // Carried number 1 is handed to the original as end of input.
    assert_eq!(joined("e: a | INT; a: e .~1;"), "e: e .~1 | INT;");
}

#[test]
fn seven_stands_where_the_original_would_decline_later() {
    let looped = ["a PLUS PLUS PLUS PLUS PLUS"; 5].join(" | ");
    let given = sheet(&format!("e: a | INT; a: {looped} | e MINUS;"));
    assert_eq!(ask_sheet(&given).err(), Some(7));
    let no_limits = traced::Limits {
        alternatives: usize::MAX,
        elements: usize::MAX,
        options: usize::MAX,
        ..traced::Limits::STANDARD
    };
    let (_, trace) = traced::run(&given, no_limits).expect("no refusal");
    assert_eq!(trace.declined[0].clause, 4);
    assert!(!original::run(&given).changed);
}
