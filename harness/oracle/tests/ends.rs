//! The end of input, asked of the original by way of blocks: what it is for the pass, in both readings of left corners.

use oracle::ends::ENDS;
use oracle::folded::{Folding, Reading};
use oracle::{Answer, Done, ask, ask_by_textbook};
use sheets::codec::{bytes_of, encode};
use sheets::generate::PROFILES;
use sheets::names::Names;
use sheets::parse::{parse, sheet};
use sheets::print::{Style, print};
use sheets::tree::{Kind, Sheet};
use sheets::walk::{self, Sort};

fn bytes(sheet: &Sheet) -> Vec<u8> {
    bytes_of(&encode(sheet))
}

fn both(grammar: &str) -> [Done; 2] {
    let bytes = bytes(&sheet(grammar));
    [ask(&bytes), ask_by_textbook(&bytes)].map(|answer| answer.expect("no refusal"))
}

fn shown(grammar: &str, done: &Done) -> String {
    let (_, names) = parse(grammar).expect("the notation");
    let rules = print(&done.result, &names, Style::Plain).replace('\n', " ");
    rules.trim_end().to_owned()
}

/// The grammar stays, and this clause stopped its only cycle.
fn declined(grammar: &str, clause: u32) {
    for done in both(grammar) {
        assert_eq!((done.plans(), done.declined.len()), (0, 1), "{grammar}");
        assert_eq!(done.declined[0].clause, clause, "{grammar}");
        assert_eq!(done.result, sheet(grammar));
    }
}

fn joined(grammar: &str, result: &str) {
    for done in both(grammar) {
        assert_eq!(done.plans(), 1, "{grammar}");
        assert_eq!(shown(grammar, &done), result);
    }
}

#[test]
fn it_is_looked_past_in_both_readings() {
    declined("e: a; a: e . | EOF e;", 11);
    declined("e: EOF a | INT; a: e PLUS;", 10);
    declined("e: EOF+ a | INT; a: e PLUS;", 10);
    // Taken as kind 5 it would be joined.
    joined("e: a; a: e . | . e;", "e: a; a: a . | . e;");
}

#[test]
fn it_can_be_empty_whatever_its_quantifier() {
    for tail in ["EOF", "EOF?", "EOF+", "EOF+?", "EOF EOF*", "( EOF )", "n"] {
        declined(&format!("e: a | INT; a: e {tail}; n: EOF;"), 11);
    }
    joined("e: a | INT; a: e .;", "e: e . | INT;");
    joined("e: a | INT; a: e EOF PLUS;", "e: e EOF PLUS | INT;");
}

#[test]
fn it_settles_a_corner_and_is_something_to_begin_with() {
    joined("e: a | EOF; a: e PLUS;", "e: e PLUS | EOF;");
    joined("e: a | EOF+; a: e PLUS;", "e: e PLUS | EOF+;");
    joined("e: a? EOF | INT; a: e PLUS;", "e: e PLUS EOF | EOF | INT;");
    declined("e: a | ; a: e PLUS;", 11);
}

#[test]
fn it_stops_no_inlining_and_binds_no_name() {
    joined("e: a | INT; a: e PLUS EOF;", "e: e PLUS EOF | INT;");
    joined(
        "e: a {$EOF} | INT; a: e PLUS EOF;",
        "e: e PLUS EOF {$EOF} | INT;",
    );
    declined("e: a {$x} | INT; a: e PLUS x=EOF;", 8);
    declined("e: a x=EOF | INT; a: e x=PLUS;", 7);
    declined("n: EOF; e: n a | INT; a: e X;", 10);
}

#[test]
fn the_readings_part_at_the_symbol_beside_it_alone() {
    for grammar in [
        "e: a | INT; a: e PLUS | EOF NAME? e MINUS;",
        "e: a | INT; a: e PLUS | NAME? EOF e MINUS;",
    ] {
        assert_eq!(both(grammar).map(|done| done.plans()), [1, 0], "{grammar}");
    }
}

/// The copy has everything of it but the id; ids are counted without the block, and the trail and all origins are so too.
#[test]
fn it_is_copied_as_it_is() {
    let grammar = "e: a | INT; a: e PLUS x=EOF+<p=3>~4;";
    for done in both(grammar) {
        let given = sheet(grammar);
        let mut copied = given.rules[1].alternatives[0].elements[2].clone();
        let made = &done.result.rules[0].alternatives[0].elements[2];
        assert_eq!(copied.kind, Kind::EndOfInput);
        copied.id = made.id;
        copied.label.as_mut().expect("a label").id = 1;
        assert_eq!(*made, copied);
        let trail = [
            [2, 13, 1, 12],
            [3, 25, 2, 22],
            [3, 26, 2, 23],
            [3, 27, 2, 24],
        ];
        assert_eq!(done.trail[..4], trail);
        assert_eq!(done.trail[4..], [[4, 1, 2, 0], [1, 1, 1, 1]]);
        let counters = done.result.counters;
        assert_eq!(
            (counters.alternative, counters.element, counters.label),
            (14, 28, 2)
        );
        let lists: Vec<(Sort, u32)> = done.origins.iter().map(|own| (own.sort, own.id)).collect();
        assert_eq!(lists.len(), done.trail.len());
    }
}

/// Where nothing is folded the way by blocks gives the answer that is given without it, origins and declines included.
#[test]
fn the_way_by_blocks_is_no_other_where_there_are_none() {
    let mut joined = 0;
    for profile in PROFILES
        .iter()
        .filter(|own| !own.about_limits && !own.has_ends)
    {
        for seed in 300..330 {
            let given = profile.sheet(seed);
            let plain = told(ask(&bytes(&given)));
            let folded = Folding::of(&given, Reading::Original).run(&given);
            joined += usize::from(plain.contains("ok 1"));
            assert_eq!(
                told(folded.map(|ran| ran.done())),
                plain,
                "{} {seed}",
                profile.name
            );
        }
    }
    assert!(joined > 200, "{joined}");
}

/// Everything that is stored of an answer, and what each plan leaves.
fn told(answer: Answer) -> String {
    let stages = answer.iter().flat_map(|done| &done.stages);
    let after: String = stages
        .map(|stage| print(&stage.after, &Names::default(), Style::Full))
        .collect();
    oracle::text::full(&answer) + &after
}

/// Every element of kind 7 is one afterwards, and no other is.
#[test]
fn what_was_the_end_of_input_is_so_afterwards() {
    let mut copies = 0;
    let ends = |sheet: &Sheet| -> Vec<u32> {
        let all = sheet.rules.iter().flat_map(walk::elements);
        all.filter(|own| own.is_end_of_input())
            .map(|own| own.id)
            .collect()
    };
    for profile in PROFILES.iter().filter(|own| own.has_ends) {
        for seed in 0..200 {
            let given = profile.sheet(seed);
            let Ok(done) = ask(&bytes(&given)) else {
                continue;
            };
            let mut known = ends(&given);
            for [sort, id, _, owner] in &done.trail {
                if *sort == Sort::Element as u32 && known.contains(owner) {
                    known.push(*id);
                    copies += 1;
                }
            }
            let all = done.result.rules.iter().flat_map(walk::elements);
            for own in all {
                assert_eq!(
                    own.is_end_of_input(),
                    known.contains(&own.id),
                    "{}",
                    profile.name
                );
            }
        }
    }
    assert!(copies > 400, "{copies}");
}

#[test]
fn each_grammar_that_is_stored_has_it_or_is_its_neighbour() {
    let without = ENDS.iter().filter(|grammar| !grammar.contains("EOF"));
    assert_eq!(without.count(), 2);
}
