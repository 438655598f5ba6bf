//! What a text means, and that it comes back as it was written.

use notation::{
    Kind, Label, Names, Node, Place, Printer, Reference, Style, Table, alternatives, parse,
    parse_table, print,
};

const ALL: &str = "\
%kind combined;
%preserve a;
e !1: a? DOTS | ~3 # <o=1,p=2> x=INT {$INT $x.text} |;
a@5: e[5]+? .~7 &{$e::depth} ( e^0 | X ) ( - ) _* PLUS<q=9>~8 e[5]?^4294967294<o=1>~7;
";

#[test]
fn plain_text_comes_back_as_it_was_written() {
    let grammar = parse(ALL).expect("the notation");
    assert_eq!(print(&grammar, Style::Plain), ALL);
}

#[test]
fn comments_and_gaps_mean_nothing() {
    let spaced = "\u{feff}// head\r\ne // a rule\n:\ta|INT // end ; | {\n;a:e PLUS e;//";
    assert_eq!(parse(spaced), parse("e: a | INT; a: e PLUS e;"));
}

/// SPECIFICATION 15.20.
#[test]
fn the_first_worked_grammar() {
    let made = parse("e: a | INT; a: e PLUS e;").unwrap();
    let rows = [
        &[1, 1, 0, 2, 10, 0, 0, 0, 1, 20, 0, 3, 0, 0, 0, 2, 0, 0][..],
        &[11, 0, 0, 0, 1, 21, 0, 4, 0, 0, 0, 3],
        &[2, 2, 0, 1, 12, 0, 0, 0, 3, 22, 0, 3, 0, 0, 0, 1, 0, 0],
        &[23, 0, 4, 0, 0, 0, 4, 24, 0, 3, 0, 0, 0, 1, 0, 0],
        &[2, 64, 0, 13, 25, 0, 0, 0],
    ];
    assert_eq!(made.sheet.words(), rows.concat());
    assert_eq!(made.sheet.bytes().len(), 288);
}

/// Behind a call and its quantifier; its word is one more, since 0 is for none.
#[test]
fn precedences_of_calls() {
    let words = |text: &str| -> Vec<u32> {
        let made = parse(text).expect(text);
        let mut found = Vec::new();
        alternatives(&made.sheet.rules[0].alternatives, &mut |node| {
            if let Node::Element(_, own) = node
                && let Kind::Call { precedence, .. } = own.kind
            {
                found.push(precedence);
            }
        });
        assert_eq!(print(&made, Style::Plain), text);
        found
    };
    assert_eq!(
        words("e: e PLUS e^3 x=e?^0 ( e[5]*?^4294967294<o=1>~2 | e^7 );\n"),
        [0, 4, 1, u32::MAX, 8]
    );
}

/// Behind a gap the mark is that of the next element's id, as it was before calls had a precedence.
#[test]
fn a_gap_tells_ids_from_precedences() {
    let own = |text: &str| {
        let made = parse(text).expect(text);
        let elements = made.sheet.rules[0].alternatives[0].elements.clone();
        let Kind::Call { precedence, .. } = elements[0].kind else {
            panic!("a call")
        };
        (precedence, elements[1].id)
    };
    assert_eq!(own("e: e^50 X;"), (51, 21));
    for text in ["e: e ^50 X;", "e: e// a gap\n^50 X;"] {
        assert_eq!(own(text), (0, 50));
    }
    assert_eq!(own("e: e^3 ^50 X;"), (4, 50));
    let full = print(&parse("e: e^3 ^50 X;").unwrap(), Style::Full);
    assert!(full.ends_with("e: e^3 ^50 X;\n"), "{full}");
}

#[test]
fn names_are_numbered_as_they_appear() {
    let made = parse("e: r_1 T%2 | stage_1 T_70000; r_1: o_07;").unwrap();
    let names: Vec<_> = made.names.all().collect();
    let texts = [
        (1, "e"),
        (3, "r_1"),
        (4, "stage_1"),
        (5, "T_70000"),
        (6, "o_07"),
    ];
    assert_eq!(names, texts, "2 is the number of T%2");
    assert_eq!(made.names.number("r_1"), Some(3));
    assert_eq!(made.names.text(2), None);
}

/// Sensors on a drawing are called T_1, and no number is meant by it.
#[test]
fn every_spelling_is_a_name_of_its_own() {
    let all = ["r_1", "x_1", "o_1", "T_1", "r_2", "r1", "r"];
    let made = parse(&format!("e: {};", all.join(" "))).unwrap();
    let numbers: Vec<_> = all.map(|text| made.names.number(text)).into();
    let counted: Vec<_> = (2..9).map(Some).collect();
    assert_eq!(numbers, counted);
    let text = print(&made, Style::Plain);
    assert_eq!(text, "e: r_1 x_1 o_1 T_1 r_2 r1 r;\n");
    let rules = parse("o_1: r_1 X | P; r_1: o_1 Y;").unwrap().sheet.rules;
    assert_eq!((rules[0].name, rules[1].name), (1, 2));
}

/// A name of a number reads back in every place, and no text takes its number.
#[test]
fn names_of_numbers_read_back() {
    let text =
        "%preserve 2;\nr%1: x%3=T%4 r%2 {$x%3 $x%3.? $x%2::?} T%5<o%6=7>;\nr%2: <o%6=1> T%4;\n";
    let made = parse(text).unwrap();
    assert!(made.names.is_empty());
    assert_eq!(print(&made, Style::Plain), text);
    let made = parse("e: T%1 a;").unwrap();
    assert_eq!(made.sheet.rules[0].name, 2);
}

/// `EOF` is an element of kind 7 with all that an element has, and no name; a label may be called so, a token is not.
#[test]
fn the_end_of_input_is_no_token() {
    let text = "e: EOF x=EOF+?<o=1>~4 EOF=INT {$EOF};\n";
    let made = parse(text).unwrap();
    assert_eq!(print(&made, Style::Plain), text);
    let elements = &made.sheet.rules[0].alternatives[0].elements;
    let kinds: Vec<u32> = elements.iter().map(|own| own.kind.number()).collect();
    assert_eq!(kinds, [7, 7, 4, 1]);
    assert_eq!((elements[1].quantifier, elements[1].carried), (6, 4));
    assert_eq!(parse("e: EOF INT;").unwrap().names.number("EOF"), None);
    let mut made = parse("e: a INT EOF; a: INT;").unwrap();
    made.names = named("%names e=1 a=2 EOF=3;");
    let text = print(&made, Style::Plain);
    assert_eq!(text, "e: a T%3 EOF;\na: T%3;\n");
    assert_eq!(parse(&text).unwrap().sheet, made.sheet);
}

#[test]
fn names_can_have_numbers_of_their_own() {
    let made = parse("%names INT=9 e=4; e: INT X;").unwrap();
    let sheet = &made.sheet;
    assert_eq!(sheet.rules[0].name, 4);
    let elements = &sheet.rules[0].alternatives[0].elements;
    assert_eq!(
        (&elements[0].kind, &elements[1].kind),
        (&Kind::Token(9), &Kind::Token(1))
    );
    let table = notation::names_text(&made.names);
    assert_eq!(table, "%names\n    X=1\n    e=4\n    INT=9\n;\n");
    assert!(named(&table).all().eq(made.names.all()));
}

#[test]
fn numbers_of_names_go_to_the_last_word() {
    let made = parse("%names INT=4294967295 e=65536; e: INT T%4294967294 X;").unwrap();
    let numbers = ["INT", "e", "X"].map(|text| made.names.number(text));
    assert_eq!(numbers, [Some(u32::MAX), Some(65_536), Some(1)]);
    let elements = &made.sheet.rules[0].alternatives[0].elements;
    assert_eq!(elements[1].kind, Kind::Token(4_294_967_294));
}

/// A table with the digest of some sheet in front.
fn named(names: &str) -> Names {
    let text = format!("%sheet sha256_{};{names}", "0".repeat(64));
    parse_table(text.as_bytes()).expect("a table").names
}

/// Attributes of actions and predicates by their ids, with `?` where there is none.
#[test]
fn attributes_stand_in_the_table() {
    let made = parse("e: x=INT {@3 $x.text $x $INT.line} &{$e::depth} {$x} {};").unwrap();
    let table = Table {
        sheets: vec!["a".repeat(64), "b".repeat(64)],
        names: made.names,
        attributes: made.attributes,
    };
    let text = table.text();
    let tail = "%attributes action 3 text ? line;\n%attributes predicate 0 depth;\n";
    assert!(text.ends_with(tail), "{text}");
    assert_eq!(parse_table(text.as_bytes()), Ok(table));
}

/// A table that does not fit the sheet changes nothing of what the text means.
#[test]
fn names_that_do_not_fit_are_written_by_number() {
    let mut made = parse("e: a INT; a: INT;").unwrap();
    made.names = named("%names e=1 A=2 int=3;");
    let text = print(&made, Style::Plain);
    assert_eq!(text, "e: r%2 T%3;\nr%2: T%3;\n");
    assert_eq!(parse(&text).unwrap().sheet, made.sheet);
}

#[test]
fn ids_follow_on_in_reading_order() {
    let made = parse("e: x=( @50 y@7=INT {@3 $x} | ^90 {} ) &{};")
        .unwrap()
        .sheet;
    let outer = &made.rules[0].alternatives[0].elements;
    assert_eq!(
        (outer[0].id, outer[0].label),
        (20, Some(Label { id: 0, name: 2 }))
    );
    let Kind::Block(inner) = &outer[0].kind else {
        panic!("a block")
    };
    assert_eq!((inner[0].id, inner[1].id), (50, 51));
    assert_eq!(inner[0].elements[0].label.map(|label| label.id), Some(7));
    assert_eq!((inner[1].elements[0].id, outer[1].id), (90, 91));
    let Kind::Action(body) = &inner[0].elements[1].kind else {
        panic!("an action")
    };
    let reference = Reference { kind: 0, name: 2 };
    assert_eq!((body.id, &body.references[..]), (3, &[reference][..]));
    let own = made.counters;
    assert_eq!((own.alternative, own.element, own.label), (52, 92, 8));
    assert_eq!((own.action, own.predicate), (5, 1));
}

#[test]
fn preserved_rules_by_name_and_by_id() {
    let made = parse("%preserve a 9; %preserve 9; e: a; a@3: X;").unwrap();
    assert_eq!(made.sheet.preserved, [3, 9]);
    assert!(print(&made, Style::Plain).starts_with("%preserve a 9;\n"));
}

#[test]
fn parts_are_printed_one_by_one() {
    let grammar = parse("e: a? x=INT | ;").unwrap();
    let mut printer = Printer::of(&grammar, Style::Plain);
    let rule = &grammar.sheet.rules[0];
    assert_eq!(printer.head(rule), "e");
    assert_eq!(printer.alternative(&rule.alternatives[0]), " a? x=INT");
    assert_eq!(printer.alternative(&rule.alternatives[1]), "");
    assert_eq!(printer.name(1, Place::Rule), "e");
    assert_eq!(printer.name(77, Place::Token), "T%77");
}
