//! The clause by which a cycle is declined, by its number (SPECIFICATION 10), read off
//! the original's planner from top to bottom.

use oracle::ask_sheet;
use sheets::parse::sheet;

/// Clauses of the cycles that are still there at the end.
fn clauses(grammar: &str) -> Vec<u32> {
    let done = ask_sheet(&sheet(grammar)).expect("no refusal");
    done.declined.iter().map(|decline| decline.clause).collect()
}

#[test]
fn each_clause_is_told_by_its_number() {
    let table = [
        ("e: a X; a: e Y;", 1),
        ("e !1: a | INT; a: e PLUS;", 2),
        ("e: a | INT; a !2: e PLUS;", 3),
        ("e: a | INT; a: a PLUS | e MINUS;", 4),
        ("e: a {$a} | INT; a: e PLUS;", 5),
        ("e: a?? X | INT; a: e PLUS;", 6),
        ("e: a x=INT | INT; a: e x=PLUS;", 7),
        ("e: a {$PLUS} | INT; a: e PLUS;", 8),
        ("e: <o=1> a | INT; a: <o=2> e PLUS;", 9),
        ("e: (a) X | INT; a: e PLUS;", 10),
        ("e: a | INT; a: e n; n: ;", 11),
    ];
    for (grammar, clause) in table {
        assert_eq!(clauses(grammar), [clause], "{grammar}");
    }
}

#[test]
fn the_first_clause_that_is_met_is_told() {
    let table = [
        // A hub with arguments and a satellite that can't be inlined.
        ("e !1: a | INT; a !2: e PLUS;", 2),
        // A satellite that can't be inlined and a blocked corner.
        ("e: a* | INT; a !2: e PLUS;", 3),
        // A dangling reference and a label collision.
        ("e: a x=X {$a} | INT; a: e x=PLUS;", 5),
        // A label collision in the second alternative and options in the first.
        ("e: <o=1> a x=X | INT; a: <o=2> e PLUS | x=Y;", 9),
        ("e: <o=1> a x=X | INT; a: x=Y | <o=2> e PLUS;", 7),
        // A label collision and a binding collision in one alternative.
        ("e: a x=X {$PLUS} | INT; a: e x=PLUS;", 7),
        // The 65th step would meet a blocked corner.
        (
            "e: a? a? V | c | c* | INT; a: b? b? b? X e; b: c? c? c? c? Y e; c: e Z;",
            4,
        ),
        // The first alternative in need of work decides, not the first clause.
        ("e: a* X | a {$a} | INT; a: e PLUS;", 6),
        ("e: a {$a} | a* X | INT; a: e PLUS;", 5),
    ];
    for (grammar, clause) in table {
        assert_eq!(clauses(grammar), [clause], "{grammar}");
    }
}

#[test]
fn cycles_are_told_by_least_id_and_only_those_still_there() {
    let done = ask_sheet(&sheet(
        "f: g | INT; g: f PLUS; e: a X; a: e Y; h !1: i | INT; i: h PLUS;",
    ));
    let done = done.expect("no refusal");
    let told: Vec<(u32, &[u32])> = done
        .declined
        .iter()
        .map(|decline| (decline.clause, &decline.cycle[..]))
        .collect();
    assert_eq!(told, [(1, &[3, 4][..]), (2, &[5, 6][..])]);
    assert_eq!(clauses("e: a | INT; a: e PLUS;"), [0; 0]);
    assert_eq!(clauses("%kind lexer; e: a X; a: e Y;"), [0; 0]);
}
