//! The notation, both ways.

use sheets::generate::PROFILES;
use sheets::names::Names;
use sheets::parse::{parse, sheet};
use sheets::print::{Style, print};
use sheets::tree::{Element, Kind, Label, Reference};

#[test]
fn every_sheet_is_printed_and_parsed_back() {
    for profile in &PROFILES {
        for seed in 0..60 {
            let made = profile.sheet(seed);
            let text = print(&made, &Names::default(), Style::Full);
            let (back, _) = parse(&text).unwrap_or_else(|fault| panic!("{fault} in {text}"));
            assert_eq!(back, made, "{} {seed}: {text}", profile.name);
        }
    }
}

#[test]
fn plain_text_comes_back_as_it_was_written() {
    let text = "%kind combined;\n%preserve a;\n\
                e !1: a? DOTS | # <o=1,p=2> x=INT {$INT $x.a} |;\n\
                a: e[5]+?^3<o=3> e?^0 e^4294967294 e[1]^2 .~7 &{$e::a} ( e | X ) ( - ) _* PLUS<q=9>;\n";
    let (made, names) = parse(text).expect("the notation");
    assert_eq!(print(&made, &names, Style::Plain), text);
}

/// `EOF` is kind 7 with whatever an element has, and no token; a label and a reference may have the name.
#[test]
fn the_end_of_input_is_a_word_of_its_own() {
    let text = "e: EOF x=EOF+?<o=1> | EOF=INT {$EOF} EOF*;\n";
    let (made, names) = parse(text).expect("the notation");
    assert_eq!(print(&made, &names, Style::Plain), text);
    let elements = |place: usize| &made.rules[0].alternatives[place].elements;
    let kinds = |place: usize| -> Vec<(u32, u32)> {
        let own = elements(place).iter();
        own.map(|one| (one.kind.number(), one.quantifier)).collect()
    };
    assert_eq!(kinds(0), [(7, 0), (7, 6)]);
    assert_eq!(kinds(1), [(4, 0), (1, 0), (7, 3)]);
    // A token that has the number of that name is not printed by it.
    let name = elements(1)[0].label.expect("a label").name;
    let mut other = made.clone();
    other.rules[0].alternatives[0].elements[0].kind = Kind::Token(name);
    let printed = print(&other, &names, Style::Plain);
    assert!(
        printed.starts_with(&format!("e: T_{name} x=EOF")),
        "{printed}"
    );
    // With its number it is a token, as any other.
    let token = sheet("e: EOF_7;").rules[0].alternatives[0].elements[0].clone();
    assert_eq!(token.kind, Kind::Token(7));
}

#[test]
fn names_are_numbered_as_they_appear() {
    let made = sheet("e: a | INT; a: e PLUS e;");
    assert_eq!(
        made.rules
            .iter()
            .map(|rule| (rule.id, rule.name))
            .collect::<Vec<_>>(),
        [(1, 1), (2, 2)]
    );
    assert_eq!(
        made.rules[1].alternatives[0].elements[1].kind,
        Kind::Token(4)
    );
    let written = sheet("e: X_1 Y; a_2: Z;");
    assert_eq!(written.rules[0].name, 3, "1 and 2 are taken");
}

#[test]
fn ids_follow_on_in_reading_order() {
    let made = sheet("e: x=( @50 y@7=INT {@3 $x} | ^90 {} ) &{};");
    let outer = &made.rules[0].alternatives[0].elements;
    assert_eq!(
        (outer[0].id, outer[0].label),
        (20, Some(Label { id: 0, name: 2 }))
    );
    let Kind::Block(inner) = &outer[0].kind else {
        panic!("a block")
    };
    assert_eq!((inner[0].id, inner[1].id), (50, 51));
    assert_eq!(inner[0].elements[0].label.map(|label| label.id), Some(7));
    assert_eq!((inner[1].elements[0].id, outer[1].id), (90, 91));
    let Kind::Action(body) = &inner[0].elements[1].kind else {
        panic!("an action")
    };
    assert_eq!(
        (body.id, &body.references[..]),
        (3, &[Reference { kind: 0, name: 2 }][..])
    );
    let counters = made.counters;
    assert_eq!(
        (counters.alternative, counters.element, counters.label),
        (52, 92, 8)
    );
    assert_eq!((counters.action, counters.predicate), (5, 1));
}

#[test]
fn faults_are_told() {
    for text in [
        "e: a",
        "e a;",
        "e: (a;",
        "e: <o> a;",
        "e: a[x];",
        "e: \u{a7};",
        "%kind x;",
        "%preserve q; e: X;",
    ] {
        assert!(parse(text).is_err(), "{text}");
    }
}

/// It touches the call, while the id of an element stands behind a gap.
#[test]
fn a_precedence_is_one_less_than_its_word() {
    let words = |text: &str| -> Vec<u32> {
        let own = sheet(text).rules[0].alternatives[0].elements.clone();
        let word = |element: &Element| match element.kind {
            Kind::Call { precedence, .. } => precedence,
            _ => panic!("no call"),
        };
        own.iter().map(word).collect()
    };
    assert_eq!(words("e: a^0 a[5]^3 a?^4294967294 a;"), [1, 4, u32::MAX, 0]);
    let apart = sheet("e: a ^7 a;").rules[0].alternatives[0]
        .elements
        .clone();
    assert_eq!((apart[0].id, apart[1].id), (20, 7));
    assert_eq!(words("e: a ^7 a^2;"), [0, 3]);
    for bad in [
        "e: a^4294967295;",
        "e: a^;",
        "e: X^3;",
        "e: ( a )^3;",
        "e: a^3?;",
    ] {
        assert!(parse(bad).is_err(), "{bad}");
    }
}
