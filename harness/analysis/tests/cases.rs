//! Small grammars for one point each of SPECIFICATION 6, 7.5 and 14.

mod common;

use common::{both, members, rust, textbook};

#[test]
fn quantifiers_make_nullable() {
    let found =
        both("a: X?; b: X??; c: X*; d: X*?; e: X+; f: X+?; g: X; h: .*; i: q?; j: q; k: q+;");
    assert_eq!(found.nullable(), "a b c d h i");
}

#[test]
fn what_is_empty_by_itself_is_nullable_whatever_its_quantifier() {
    assert_eq!(
        both("a: _; b: {}; c: &{}; d: _+ {}* &{}+?; e: _ X;").nullable(),
        "a b c d"
    );
}

#[test]
fn calls_and_blocks_of_nullables_are_nullable() {
    let found =
        both("a: b c; b: c+; c: (X | d); d: ; e: a X; f: f | a; g: g; h: (); i: (-); j: -;");
    assert_eq!(found.nullable(), "a b c d f h");
}

#[test]
fn nullability_goes_along_a_chain_against_the_order_of_the_sheet() {
    let rules: String = (1..=127).map(|n| format!("r_{n}: r_{};", n + 1)).collect();
    let found = both(&(rules + "r_128: ;"));
    assert_eq!(
        members(found.facts.nullable()),
        (0..128).collect::<Vec<_>>()
    );
    let waits = both("a: b b c; b: c; c: X | d d; d: ;");
    assert_eq!(waits.nullable(), "a b c d");
}

#[test]
fn an_unknown_call_is_a_symbol() {
    assert_eq!(both("e: q a | X; a: e Y;").corners("e"), "");
    assert_eq!(both("e: q+ a | X; a: e Y;").corners("e"), "");
    assert_eq!(both("e: q a | X; a: e Y;").calls("e"), "a");
    assert_eq!(rust("e: q? a | X; a: e Y;").corners("e"), "");
    assert_eq!(textbook("e: q? a | X; a: e Y;").corners("e"), "a");
    assert_eq!(textbook("e: q? a | X; a: e Y;").cycles(), ["e a"]);
    assert_eq!(both("e: q | X; q_9: e;").calls("e"), "");
}

#[test]
fn optional_calls_are_corners_and_are_passed() {
    for mark in ["?", "??", "*", "*?"] {
        let found = both(&format!("e: a{mark} b X; a: Y; b: Z; c: b;"));
        assert_eq!(found.corners("e"), "a b");
    }
    for mark in ["", "+", "+?"] {
        let found = both(&format!("e: a{mark} b X; a: Y; b: Z; c: n{mark} b; n: ;"));
        assert_eq!(found.corners("e"), "a");
        assert_eq!(found.corners("c"), "b n");
    }
}

#[test]
fn optional_symbols_are_passed_by_the_textbook_alone() {
    for symbol in ["T", ".", "q"] {
        for mark in ["?", "??", "*", "*?"] {
            let grammar = format!("e: {symbol}{mark} a b; a: X; b: Y;");
            assert_eq!(rust(&grammar).corners("e"), "", "{grammar}");
            assert_eq!(textbook(&grammar).corners("e"), "a", "{grammar}");
        }
        for mark in ["", "+", "+?"] {
            let grammar = format!("e: {symbol}{mark} a b; a: X; b: Y;");
            assert_eq!(both(&grammar).corners("e"), "", "{grammar}");
        }
    }
}

#[test]
fn a_block_gives_the_corners_of_all_its_alternatives() {
    let found = both("e: (X | a | (Y | n b)) c; a: e Z; b: Z; c: Z; n: ;");
    assert_eq!(found.corners("e"), "a b n");
    assert_eq!(found.cycles(), ["e a"]);
    assert_eq!(both("e: (a | ) b; a: X; b: Y;").corners("e"), "a b");
    assert_eq!(both("e: (a | X)* b; a: X; b: Y;").corners("e"), "a b");
    assert_eq!(both("e: (-) b; b: Y;").corners("e"), "");
    assert_eq!(both("e: (-)? b; b: Y;").corners("e"), "b");
    // The block can be empty, and in it the symbol ends the original's search.
    let inner = "e: (T? a)? b; a: X; b: Y;";
    assert_eq!(rust(inner).corners("e"), "b");
    assert_eq!(textbook(inner).corners("e"), "a b");
    assert_eq!(both("e: (T?) b; b: Y;").corners("e"), "b");
}

#[test]
fn blocks_eight_deep_are_looked_into() {
    let deep = |inner: &str| format!("{}{inner}{}", "(X | ".repeat(8), ")".repeat(8));
    let found = both(&format!(
        "e: {} Y; a: e; b: {}; c: {};",
        deep("a"),
        deep(""),
        deep("{}")
    ));
    assert_eq!(found.corners("e"), "a");
    assert_eq!(found.calls("e"), "a");
    assert_eq!(found.cycles(), ["e a"]);
    assert_eq!(found.nullable(), "b c");
    assert_eq!(found.fixed(), "c");
}

#[test]
fn a_token_with_the_name_of_a_rule_calls_nothing() {
    let found = both("e_1: T_2 X; a_2: r_1 T_1;");
    assert_eq!(members(found.facts.calls[0]), []);
    assert_eq!(members(found.facts.calls[1]), [0]);
    assert_eq!(found.facts.numbers[2], 0);
}

#[test]
fn a_self_edge_is_a_corner_and_no_cycle() {
    let found = both("e: e X | Y; a: b; b: a Z | b; c: c;");
    assert_eq!(found.corners("e"), "e");
    assert_eq!(found.corners("b"), "a b");
    assert_eq!(found.cycles(), ["a b"]);
}

#[test]
fn cycles_are_the_largest_sets() {
    let found = both("a: b | d; b: c X; c: a X | b; d: e; e: d X; f: g; g: a; h: h;");
    assert_eq!(found.cycles(), ["a b c", "d e"]);
}

#[test]
fn cycles_go_by_least_id() {
    // The order of the sheet would have e in front, and so would the greatest id.
    let found = both("e@9: a; f@4: g; a@6: e X; g@5: f X;");
    assert_eq!(found.cycles(), ["f g", "e a"]);
    let found = both("e@9: a; f@4: g; a@3: e X; g@5: f X;");
    assert_eq!(found.cycles(), ["e a", "f g"]);
    let wide = both("e@4294967295: a; f@2147483648: g; a@4294967294: e X; g@7: f X; h@1: h;");
    assert_eq!(wide.cycles(), ["f g", "e a"]);
}

#[test]
fn rules_from_64_on_are_in_the_second_word() {
    let ring: String = (1..=128)
        .map(|n| format!("r_{n}: r_{} X;", n % 128 + 1))
        .collect();
    let found = both(&ring).facts;
    assert_eq!(found.numbers, [0, 128, 1]);
    assert_eq!(found.corners[62], [1 << 63, 0]);
    assert_eq!(found.corners[63], [0, 1]);
    assert_eq!(found.corners[126], [0, 1 << 63]);
    assert_eq!(found.corners[127], [1, 0]);
    assert_eq!(found.calls, found.corners);
    assert_eq!(found.cycles[0], [u64::MAX; 2]);

    let rest: String = (1..=70).map(|n| format!("r_{n}!{}: ;", n / 66)).collect();
    let found = both(&(rest + "r_71: r_72 | T; r_72: r_71 T r_1;")).facts;
    assert_eq!(found.nullable(), [u64::MAX, 0b11_1111]);
    assert_eq!(found.fixed(), [0, 0b11_1110]);
    assert_eq!(found.calls[71], [1, 1 << 6]);
    assert_eq!(found.cycles[0], [0, 0b1100_0000]);
}

#[test]
fn flags_labels_and_semantics_stop_inlining() {
    let found = both(
        "a!0: X; b!1: X; c!2: X; d!3: X; e: X | # Y; f: (# X); g: X {}; h: (X (Y &{}))+; i: x=X;",
    );
    assert_eq!(found.fixed(), "b c d e g h");
}

#[test]
fn the_kind_of_the_unit_does_not_matter() {
    let grammar = "e: a | INT; a: e {} n; n: ;";
    let parser = both(grammar).facts;
    for kind in ["lexer", "combined"] {
        assert_eq!(both(&format!("%kind {kind}; {grammar}")).facts, parser);
    }
}
