//! The textbook's reading by the original: blocks around symbols, and what is mapped back.

mod common;

use analysis::stored::stored;
use pass::folded::{outcome, outcome_of_any};
use pass::outcome::{judged, original};
use pass::run::sheet;
use sheets::blocks::has_end_of_input;
use sheets::codec;
use sheets::parse::sheet as parsed;
use sheets::tree::{Kind, Sheet, quantifier};
use sheets::walk;

fn trees(count: u64) -> impl Iterator<Item = Sheet> {
    let stored = stored().expect("the stored answers").into_iter();
    let bytes = stored.map(|one| one.bytes);
    let all = bytes.chain((0..count).map(|index| sheet(8, index)));
    all.filter_map(|bytes| codec::read(&bytes).ok())
}

/// With kind 5 of quantifier 1 for kind 7.
fn with_optional_terminals(sheet: &Sheet) -> Sheet {
    let mut made = sheet.clone();
    for rule in &mut made.rules {
        walk::edit(&mut rule.alternatives, &mut |own| {
            if own.is_end_of_input() {
                own.kind = Kind::Other;
                own.quantifier = quantifier::OPTIONAL;
            }
        });
    }
    made
}

/// By the textbook kind 5 of quantifier 1 is all that kind 7 is, and stands in the same words: numbers, ids, trail and
/// refusals are the same, and the result but for kind and quantifier. Where no symbol may be absent the original's reading
/// has that outcome too.
#[test]
fn the_end_of_input_is_an_optional_terminal_of_the_textbook() {
    let (mut joined, mut refused, mut both) = (0, 0, 0);
    for tree in trees(6_000).filter(has_end_of_input) {
        let other = outcome_of_any(&with_optional_terminals(&tree));
        let own = outcome_of_any(&tree);
        assert_eq!(own.numbers, other.numbers, "{tree:?}");
        assert_eq!(own.trail, other.trail, "{tree:?}");
        if own.number() == 0 {
            let result = codec::tree(&own.result).expect("a sheet");
            let bytes = codec::bytes_of(&codec::encode(&with_optional_terminals(&result)));
            assert_eq!(bytes, other.result, "{tree:?}");
        }
        if outcome(&tree).is_none() {
            assert_eq!(original(&tree), own, "{tree:?}");
            both += 1;
        }
        joined += usize::from(own.plans() != 0);
        refused += usize::from(own.number() != 0);
    }
    assert!(
        joined > 200 && refused > 100 && both > 500,
        "{joined}, {refused} and {both}"
    );
}

/// Without such a symbol the way by ids counted anew leads to the same bytes, refusals included.
#[test]
fn where_nothing_is_folded_the_outcome_is_the_originals() {
    let mut numbers = [0; 10];
    let mut joined = 0;
    for tree in trees(1_500) {
        if outcome(&tree).is_none() && !has_end_of_input(&tree) {
            let whole = original(&tree);
            assert_eq!(outcome_of_any(&tree), whole, "{tree:?}");
            numbers[whole.number() as usize] += 1;
            joined += usize::from(whole.plans() != 0);
        }
    }
    assert!(joined > 300, "{joined}");
    assert!(numbers[7..].iter().all(|count| *count > 30), "{numbers:?}");
}

/// Most outcomes do not depend on the reading; then the mapped one has the same bytes, ids and trail included.
#[test]
fn most_folded_sheets_have_the_originals_outcome() {
    let (mut same, mut joined, mut refused, mut parted) = (0, 0, 0, 0);
    for tree in trees(1_500) {
        let Some(textbook) = outcome(&tree) else {
            continue;
        };
        let rust = original(&tree);
        same += usize::from(textbook == rust);
        joined += usize::from(textbook == rust && rust.plans() != 0);
        refused += usize::from(textbook == rust && 7 < rust.number());
        parted += usize::from(textbook != rust);
    }
    assert!(joined > 100 && refused > 20, "{joined} and {refused}");
    assert!(parted > 20 && 10 * parted < same, "{parted} of {same}");
}

/// Plans by the original's reading, and by the textbook's.
const PLANS: [(&str, [u32; 2]); 18] = [
    // SPECIFICATION 14.2, and the smallest of its sort.
    ("e: a | INT; a: e PLUS | NAME? e MINUS;", [1, 0]),
    ("e: a; a: e . | .? e;", [1, 0]),
    // Born by a splice.
    ("e: a e Y | INT; a: e PLUS | X?;", [1, 0]),
    // A cycle by the textbook's left corners alone, of which the hub's own splice is blocked or not.
    ("e: INT? a | X; a: e PLUS;", [0, 0]),
    ("e: INT? a | b | X; a: e PLUS; b: e MINUS;", [1, 0]),
    // Behind a symbol that is never absent, and behind the hub's call.
    ("e: a | INT; a: e PLUS | NAME+ e MINUS;", [1, 1]),
    ("e: a zz?? | INT; a: e PLUS? .* NAME;", [1, 1]),
    ("e: a | INT; a: e PLUS | ( NAME? X ) e MINUS;", [1, 1]),
    // The end of input: no reading ends at it, and it can be empty.
    ("e: a; a: e . | EOF e;", [0, 0]),
    ("e: EOF a | INT; a: e PLUS;", [0, 0]),
    ("e: a | INT; a: e EOF;", [0, 0]),
    ("e: a | INT; a: e EOF+;", [0, 0]),
    ("e: a | EOF; a: e PLUS;", [1, 1]),
    ("e: a | INT; a: e PLUS EOF;", [1, 1]),
    ("n: EOF; e: n a | INT; a: e X;", [0, 0]),
    ("e: a | INT; a: e PLUS | EOF NAME? e MINUS;", [1, 0]),
    ("e: a | INT; a: e PLUS | NAME? EOF e MINUS;", [1, 0]),
    ("e: a | INT; a: e .;", [1, 1]),
];

/// In these grammars by its text.
fn has_optional_symbol(grammar: &str) -> bool {
    let mut words = grammar.split([' ', ';']);
    words.any(|word| word != "EOF?" && word.ends_with('?') || word.ends_with('*'))
}

#[test]
fn small_grammars_are_joined_as_each_reading_says() {
    for (grammar, expected) in PLANS {
        let judged = judged(&common::bytes(grammar));
        let plans = judged.readings.each_ref().map(|own| own.plans());
        assert_eq!(plans, expected, "{grammar}");
        assert_eq!(judged.folded, has_optional_symbol(grammar), "{grammar}");
        assert_eq!(judged.ends, grammar.contains("EOF"), "{grammar}");
    }
}

/// In blocks 8 deep a symbol's own block would be the ninth; the original does not mind.
#[test]
fn the_deepest_symbols_are_folded_too() {
    let block = format!("{}X?{}", "( ".repeat(8), " )".repeat(8));
    let tree = parsed(&format!("e: a {block} | INT; a: e PLUS;"));
    let textbook = outcome(&tree).expect("a symbol that may be absent");
    assert_eq!(textbook.plans(), 1);
    assert_eq!(textbook, original(&tree));
}

/// Labels, options and carried numbers of a symbol are its own, wherever it stands, and ids are counted without its block.
#[test]
fn a_symbol_comes_back_as_it_was() {
    let grammar = "e: a x=X?<p=2>~6 ( y=zz[5]* | .??~7 )+ {$x} | INT; a: e PLUS?<q=1> u=U*? K;";
    let tree = parsed(grammar);
    let textbook = outcome(&tree).expect("a symbol that may be absent");
    assert_eq!(textbook.plans(), 1);
    assert_eq!(textbook, original(&tree));
}
