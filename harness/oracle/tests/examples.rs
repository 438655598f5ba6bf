//! The 14 grammars of SPECIFICATION 15 against what it says of each.

use std::collections::BTreeSet;

use oracle::examples::{Example, Says, examples};
use oracle::{Done, ask, text};
use sheets::codec::{encode, read, words_of};
use sheets::names::Names;
use sheets::parse::parse;
use sheets::print::{Style, print};
use sheets::tree::Sheet;

/// The rules as a text that has neither ids nor counters, names by their number.
fn rules(sheet: &Sheet) -> String {
    print(sheet, &Names::default(), Style::Plain)
}

fn done(example: &Example) -> Done {
    ask(&example.bytes).unwrap_or_else(|refusal| panic!("{}: refused {refusal}", example.name))
}

fn check(example: &Example) {
    match example.says {
        Says::Refused(number) => {
            assert_eq!(ask(&example.bytes).err(), Some(number), "{}", example.name);
        }
        Says::Unchanged => {
            let done = done(example);
            assert_eq!((done.plans(), done.steps()), (0, 0), "{}", example.name);
            assert_eq!(done.words(), words_of(&example.bytes), "{}", example.name);
        }
        Says::Gives(grammar, steps) => {
            let done = done(example);
            assert_eq!(done.plans(), 1, "{}", example.name);
            assert!(
                steps.is_none_or(|steps| steps == done.steps()),
                "{}",
                example.name
            );
            assert_eq!(bodies(&done.result), bodies(&named_alike(example, grammar)));
        }
    }
}

/// Names, calls and quantifiers of each rule, ids left out.
fn bodies(sheet: &Sheet) -> BTreeSet<String> {
    let text = rules(sheet);
    text.lines()
        .filter(|line| !line.starts_with('%'))
        .map(str::to_owned)
        .collect()
}

/// The result in SPECIFICATION 15 with the numbers that the example's names have.
fn named_alike(example: &Example, grammar: &str) -> Sheet {
    let given = read(&example.bytes).expect("a sheet");
    let source = source_of(example.name);
    let (_, mut names) = parse(source).expect("the notation");
    let numbered = grammar_with(&mut names, grammar);
    assert_eq!(
        encode(&parse(source).expect("the notation").0),
        encode(&given)
    );
    numbered
}

fn source_of(name: &str) -> &'static str {
    oracle::examples::WRITTEN
        .iter()
        .find(|written| written.0 == name)
        .expect("a grammar")
        .1
}

/// Reads `grammar` with every name replaced by its number in `names`.
fn grammar_with(names: &mut Names, grammar: &str) -> Sheet {
    let mut text = String::new();
    let mut word = String::new();
    for letter in grammar.chars().chain(['\n']) {
        if letter.is_ascii_alphanumeric() {
            word.push(letter);
            continue;
        }
        if !word.is_empty() && word != "preserve" {
            let number = names.number(&word);
            word = format!("{word}_{number}");
        }
        text.push_str(&word);
        word.clear();
        text.push(letter);
    }
    parse(&text)
        .unwrap_or_else(|fault| panic!("{fault} in {text}"))
        .0
}

#[test]
fn the_specification_holds_of_the_original_on_all_14() {
    let all = examples();
    let numbers: BTreeSet<&str> = all
        .iter()
        .map(|one| one.name.split('-').next().expect("a part"))
        .collect();
    assert_eq!(numbers.len(), 14);
    for example in &all {
        check(example);
    }
}

#[test]
fn kept_and_removed_rules_are_those_of_the_specification() {
    let ids = |name: &str| {
        let all = examples();
        let example = all.iter().find(|one| one.name == name).expect("an example");
        done(example)
            .result
            .rules
            .iter()
            .map(|rule| rule.id)
            .collect::<Vec<_>>()
    };
    assert_eq!(ids("1"), [1]);
    assert_eq!(ids("2"), [1, 2]);
    assert_eq!(ids("11"), [2]);
}

#[test]
fn example_12_stops_at_step_65_and_13_at_the_sizes_named() {
    let all = examples();
    let twelve = all.iter().find(|one| one.name == "12").expect("an example");
    assert_eq!(
        done(twelve)
            .declined
            .iter()
            .map(|one| one.clause)
            .collect::<Vec<_>>(),
        [4]
    );
    let thirteen = all
        .iter()
        .find(|one| one.name == "13-with-31")
        .expect("an example");
    let sheet = read(&thirteen.bytes).expect("a sheet");
    let limits = |alternatives| traced::Limits {
        alternatives,
        ..traced::Limits::STANDARD
    };
    assert_eq!(
        traced::run(&sheet, limits(1_024)).err(),
        Some(9),
        "1,024 are not too many"
    );
    assert_eq!(
        traced::run(&sheet, limits(1_023)).err(),
        Some(7),
        "the list has 1,024"
    );
}

/// SPECIFICATION 15.20.
#[test]
fn case_1_is_listed_as_in_the_specification() {
    let listed = "ok 1 1\nr 1 1\na 0 13\ne 0 25 3 0 1\ne 0 26 4 0 4\ne 0 27 3 0 1\na 0 11\n\
                  e 0 21 4 0 3\nt 2 13 1 12\nt 3 25 2 22\nt 3 26 2 23\nt 3 27 2 24\nt 1 1 1 1\n";
    let case_1 = &examples()[0];
    assert_eq!(case_1.bytes.len(), 288);
    assert_eq!(text::listing(&ask(&case_1.bytes)), listed);
}
