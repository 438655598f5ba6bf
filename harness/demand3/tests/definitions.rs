//! The checker's own definitions (SPECIFICATION 13), on grammars whose answers are plain to see.

use std::collections::BTreeSet;

use demand3::corners::{Grammar, Reading};
use demand3::strings::{Languages, alphabet, languages, without_marks};
use sheets::parse::sheet;
use sheets::tree::Sheet;

/// Strings of X (0), Y (1) and Z (2), as the bits of a set.
fn set(strings: &[&str]) -> u128 {
    let start = [0, 1, 4, 13, 40];
    let bit = |text: &&str| {
        let value = text
            .bytes()
            .fold(0, |sum, letter| sum * 3 + u32::from(letter - b'X'));
        1_u128 << (start[text.len()] + value)
    };
    strings.iter().map(bit).sum()
}

/// The language of the first rule, the letters X, Y and Z being 0, 1 and 2.
fn language(grammar: &str) -> u128 {
    // `all` stands first so that the letters get their numbers in order.
    let text = format!("all: X Y Z; {grammar}");
    let made = sheet(&text);
    let symbols = alphabet([&made].into_iter()).expect("three symbols");
    let name = made.rules[1].name;
    languages(&made, &symbols)[&name]
}

/// SPECIFICATION 13.6.
#[test]
fn quantifiers_count_as_the_specification_says() {
    assert_eq!(language("e: X;"), set(&["X"]));
    assert_eq!(language("e: X?;"), set(&["", "X"]));
    assert_eq!(language("e: X??;"), set(&["", "X"]));
    assert_eq!(language("e: X*;"), set(&["", "X", "XX", "XXX", "XXXX"]));
    assert_eq!(language("e: X+;"), set(&["X", "XX", "XXX", "XXXX"]));
    assert_eq!(
        language("e: ( X | Y Z )+?;"),
        language("e: f; f: X f? | Y Z f?;")
    );
}

#[test]
fn sequences_blocks_and_calls_derive_what_they_should() {
    assert_eq!(language("e: X Y | Z;"), set(&["XY", "Z"]));
    assert_eq!(language("e: ;"), set(&[""]));
    assert_eq!(language("e: -;"), 0);
    assert_eq!(language("e: _ {} &{} X;"), set(&["X"]));
    assert_eq!(language("e: ( - ) X | Y;"), set(&["Y"]));
    assert_eq!(language("e: ( - )? X;"), set(&["X"]));
    assert_eq!(language("e: e Y e | X;"), set(&["X", "XYX"]));
    assert_eq!(
        language("e: a Z; a: e[7] | X;"),
        set(&["XZ", "XZZ", "XZZZ"])
    );
    assert_eq!(language("e: e X;"), 0);
}

#[test]
fn symbols_are_told_apart_by_kind_and_name() {
    let count = |text: &str| alphabet([&sheet(text)].into_iter()).map(|symbols| symbols.len());
    assert_eq!(count("e: X X . .~1;"), Some(3));
    assert_eq!(count("e: X_9 r_9;"), Some(2));
    assert_eq!(count("e: e X;"), Some(1));
    assert_eq!(count("e: EOF~4 EOF+~5;"), Some(1));
    assert_eq!(count("e: X Y Z V;"), None);
}

fn with_grammar<T>(made: &Sheet, work: impl Fn(Grammar<'_>) -> T) -> T {
    let symbols = alphabet([made].into_iter()).expect("three symbols");
    let derived: Languages = languages(made, &symbols);
    let bare: Languages = without_marks(made, &symbols);
    work(Grammar {
        sheet: made,
        languages: &derived,
        bare: &bare,
    })
}

/// Ids of the corners of the first rule's first alternative.
fn corners(grammar: &str, reading: Reading) -> Vec<u32> {
    let made = sheet(grammar);
    let found: BTreeSet<u32> = with_grammar(&made, |own| {
        own.corners(&own.sheet.rules[0].alternatives[0], reading)
    });
    found.into_iter().collect()
}

#[test]
fn left_corners_are_past_what_can_be_empty() {
    for reading in [Reading::Textbook, Reading::Original] {
        assert_eq!(corners("e: a e; a: X;", reading), [2]);
        assert_eq!(corners("e: a e; a: X?;", reading), [1, 2]);
        assert_eq!(corners("e: a* b e; a: X; b: X;", reading), [2, 3]);
        assert_eq!(corners("e: a+ b; a: X; b: X;", reading), [2]);
        assert_eq!(corners("e: {} _ ( X | a )? e; a: X;", reading), [1, 2]);
        assert_eq!(corners("e: ( X | a ) e; a: X;", reading), [2]);
        assert_eq!(corners("e: X e;", reading), [0; 0]);
    }
}

/// A string of end marks alone, of any length, is what can be empty; the mark is a symbol of it all the same.
#[test]
fn end_marks_are_derived_and_can_be_empty() {
    // The mark is the third symbol.
    let marks = |grammar: &str| {
        let made = sheet(&format!("all: X Y EOF; {grammar}"));
        let symbols = alphabet([&made].into_iter()).expect("three symbols");
        languages(&made, &symbols)[&made.rules[1].name]
    };
    assert_eq!(marks("e: EOF~4 | EOF~5;"), set(&["Z"]));
    assert_eq!(marks("e: EOF+;"), set(&["Z", "ZZ", "ZZZ", "ZZZZ"]));
    assert_eq!(marks("e: X EOF? | EOF Y;"), set(&["X", "XZ", "ZY"]));
    for reading in [Reading::Textbook, Reading::Original] {
        for front in [
            "EOF",
            "EOF+",
            "EOF??",
            "( EOF | X )",
            "n",
            "EOF EOF EOF EOF EOF",
        ] {
            let grammar = format!("e: {front} e; n: EOF EOF EOF EOF EOF;");
            assert!(corners(&grammar, reading).contains(&1), "{grammar}");
        }
        assert_eq!(corners("e: EOF X e;", reading), [0; 0]);
        assert_eq!(corners("e: ( EOF X ) e;", reading), [0; 0]);
    }
}

#[test]
fn the_readings_part_at_optional_symbols() {
    for grammar in [
        "e: X? e;",
        "e: .* e;",
        "e: zz?? e;",
        "e: ( Y X? ) *? e;",
        "e: ( X? ) e;",
    ] {
        assert_eq!(corners(grammar, Reading::Textbook), [1], "{grammar}");
    }
    for grammar in ["e: X? e;", "e: .* e;", "e: zz?? e;"] {
        assert_eq!(corners(grammar, Reading::Original), [0; 0], "{grammar}");
    }
    assert_eq!(
        corners("e: ( X? ) e;", Reading::Original),
        [1],
        "a block is looked past"
    );
}

#[test]
fn cycles_are_the_strongly_connected_sets() {
    let cycles = |grammar: &str| {
        let made = sheet(grammar);
        with_grammar(&made, |own| own.cycles(Reading::Textbook))
    };
    assert_eq!(cycles("e: e X;"), [[0; 0]; 0]);
    assert_eq!(cycles("e: a; a: e;"), [[1, 2]]);
    assert_eq!(cycles("e: a; a: b; b: c; c: b;"), [[3, 4]]);
    assert_eq!(cycles("e: b; a: X e; b: c; c: e | d; d: a;"), [[1, 3, 4]]);
}
