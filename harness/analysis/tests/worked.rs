//! The worked grammars (SPECIFICATION 15), and that of SPECIFICATION 14.2 in both readings.

mod common;

use analysis::facts::{Facts, facts};
use common::{both, bytes, rust, textbook};

/// A grammar, its nullable rules, its left corners, the rules that cannot be inlined, its cycle.
const WORKED: [[&str; 5]; 12] = [
    ["e: a | INT; a: e PLUS e;", "", "e: a; a: e", "", "e a"],
    [
        "%preserve a; e: a | INT; a: e PLUS e;",
        "",
        "e: a; a: e",
        "",
        "e a",
    ],
    ["e: e PLUS e | INT;", "", "e: e", "", ""],
    ["e: a? DOTS | INT; a: e PLUS;", "", "e: a; a: e", "", "e a"],
    ["e: a?? DOTS | INT; a: e PLUS;", "", "e: a; a: e", "", "e a"],
    ["e: a | INT; a: e n; n: ;", "n", "e: a; a: e; n:", "", "e a"],
    ["e: a | ; a: e PLUS;", "e", "e: a; a: e", "", "e a"],
    ["e: a | INT?; a: e PLUS;", "e", "e: a; a: e", "", "e a"],
    [
        "e: a x=INT | INT; a: x=e PLUS;",
        "",
        "e: a; a: e",
        "",
        "e a",
    ],
    [
        "e: a {$INT} | INT; a: e PLUS INT;",
        "",
        "e: a; a: e",
        "e",
        "e a",
    ],
    [
        "%preserve a; e: a | INT; a: e PLUS | NAME;",
        "",
        "e: a; a: e",
        "",
        "e a",
    ],
    [
        "e: a | INT; a: a PLUS | e MINUS | NAME;",
        "",
        "e: a; a: e a",
        "",
        "e a",
    ],
];

#[test]
fn the_worked_grammars_have_their_facts() {
    for [grammar, nullable, corners, fixed, cycle] in WORKED {
        let found = both(grammar);
        assert_eq!(found.nullable(), nullable, "{grammar}");
        assert_eq!(found.all_corners(), corners, "{grammar}");
        assert_eq!(found.fixed(), fixed, "{grammar}");
        assert_eq!(found.cycles().join("; "), cycle, "{grammar}");
    }
}

#[test]
fn calls_are_those_of_every_place() {
    assert_eq!(both("e: a | INT; a: e n; n: ;").calls("a"), "e n");
    assert_eq!(both("e: e PLUS e | INT;").calls("e"), "e");
    let found = both("e: X (Y | a (Z b)* )? ; a: X; b: c Y; c: X;");
    assert_eq!(found.calls("e"), "a b");
    assert_eq!(found.calls("b"), "c");
}

#[test]
fn thirteen_is_a_cycle_of_three() {
    let many = |alternative: &str, times| vec![alternative; times].join(" | ");
    for in_a in [31, 32] {
        let (a, b) = (many("b T", in_a), many("e T", 33));
        let found = both(&format!("e: a | INT; a: {a}; b: {b};"));
        assert_eq!(found.cycles(), ["e a b"]);
    }
}

#[test]
fn fourteen_is_refused_or_without_rules() {
    assert_eq!(facts(&[0; 28], false), Facts::refused(1));
    let mut nothing = [0; 32];
    nothing[0] = 2;
    assert_eq!(facts(&nothing, false), Facts::NONE);
    assert_eq!(facts(&nothing, true), Facts::NONE);
}

#[test]
fn case_1_word_by_word() {
    let sheet = include_bytes!("../../../examples/case-1.sheet");
    assert_eq!(sheet.len(), 288);
    let mut expected = Facts::NONE;
    expected.numbers = [0, 2, 1];
    expected.calls[..2].copy_from_slice(&[[0b10, 0], [0b01, 0]]);
    expected.corners[..2].copy_from_slice(&[[0b10, 0], [0b01, 0]]);
    expected.cycles[0] = [0b11, 0];
    assert_eq!(facts(sheet, false), expected);
    assert_eq!(facts(sheet, true), expected);
}

#[test]
fn the_readings_part_where_only_an_optional_symbol_is_in_front() {
    // In 14.2 itself the other alternative gives the same corner.
    let found = both("e: a | INT; a: e PLUS | NAME? e MINUS;");
    assert_eq!(found.corners("a"), "e");
    assert_eq!(found.cycles(), ["e a"]);

    let alone = "e: a | INT; a: NAME? e MINUS;";
    assert_eq!(rust(alone).corners("a"), "");
    assert!(rust(alone).cycles().is_empty());
    assert_eq!(textbook(alone).corners("a"), "e");
    assert_eq!(textbook(alone).cycles(), ["e a"]);
    assert_eq!(rust(alone).facts.calls, textbook(alone).facts.calls);

    // What the pass makes of 14.2: e is a corner of e in both.
    let joined = both("e: e PLUS | NAME? e MINUS | INT;");
    assert_eq!(joined.corners("e"), "e");
}

#[test]
fn every_refusal_leaves_zeros() {
    let good = bytes("e: a | INT; a: e PLUS e;");
    let changed = |at: usize, word: u32| {
        let mut sheet = good.clone();
        sheet[4 * at..4 * at + 4].copy_from_slice(&word.to_le_bytes());
        sheet
    };
    let trailer = good.len() / 4 - 8;
    let sheets = [
        (1, good[..good.len() - 1].to_vec()),
        (3, changed(trailer, 4)),
        (4, changed(1, 0)),
        (5, changed(4, 11)),
        (6, changed(trailer + 3, 12)),
    ];
    for (refusal, sheet) in sheets {
        assert_eq!(facts(&sheet, false), Facts::refused(refusal));
        assert_eq!(facts(&sheet, true), Facts::refused(refusal));
    }
}
