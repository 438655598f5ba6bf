//! What ANTLR's own texts have, each told with what to write; several faults at once; and what may be meant otherwise.

use notation::{Fault, MOST_FAULTS, Style, print, read, shown};

fn faults(text: &str) -> Vec<Fault> {
    read(text.as_bytes()).expect_err(text)
}

fn warnings(text: &str) -> Vec<String> {
    let text = read(text.as_bytes()).unwrap_or_else(|faults| panic!("{text}: {faults:?}"));
    text.warnings.iter().map(|own| own.to_string()).collect()
}

/// One fault, at this place, and a part of what it says to write.
#[test]
fn each_is_told_with_what_to_write() {
    for (text, place, advice) in [
        ("grammar X; e: X;", (1, 1), "leave it out"),
        ("lexer grammar X;\ne: X;", (1, 1), "`%kind lexer;`"),
        ("parser grammar X; e: X;", (1, 1), "leave it out"),
        ("import A, B; e: X;", (1, 1), "leave it out"),
        ("options { tokenVocab=L; } e: X;", (1, 1), "leave it out"),
        ("tokens { A, B } e: X;", (1, 1), "leave it out"),
        ("@header { import x; } e: X;", (1, 1), "leave it out"),
        ("@parser::members { int x; } e: X;", (1, 1), "leave it out"),
        ("/* two\n lines */ e: X;", (1, 1), "write `//` in front"),
        ("e: '+' e | X;", (1, 4), "write the name of its token"),
        ("e: \"and\" | X;", (1, 4), "write the name of its token"),
        ("e: ';' e;", (1, 4), "write the name of its token"),
        ("e: '\\'' e;", (1, 4), "write the name of its token"),
        ("e: [a-z;|]+ | X;", (1, 4), "`.~7`"),
        ("e: 'a'..'z' | X;", (1, 4), "write a range as `.~7`"),
        ("e: ~X | Y;", (1, 5), "`.~7`"),
        ("e: Y ~( X | Z );", (1, 7), "`.~7`"),
        ("%kind lexer; fragment D: X;", (1, 14), "leave the word out"),
        ("%kind lexer; W: X -> skip; V: Y;", (1, 19), "leave `->`"),
        ("e: -> X;", (1, 4), "leave `->`"),
        ("e: e PLUS e # Add | INT;", (1, 13), "`#` stands in front"),
        ("e: <assoc=right> e UP e | X;", (1, 11), "`<assoc=1>`"),
        (
            "e: X<fail='no'>;",
            (1, 11),
            "the value of an option is a number",
        ),
        ("e[int x]: X;", (1, 2), "`!1`"),
        ("e returns [int v]: X;", (1, 3), "`!2`"),
        ("e locals [int v; int w]: X;", (1, 3), "`!2`"),
        ("e throws A, B: X;", (1, 3), "`!2`"),
        ("e options { x=y; }: X;", (1, 3), "`!2`"),
        ("e @init { x = 1; }: X;", (1, 3), "`!2`"),
        ("e: X; catch [E e] { f(); }", (1, 7), "`!2`"),
        ("e: X; finally { f(); }", (1, 7), "`!2`"),
        ("e: a[x + 1] X;", (1, 5), "`e[5]`"),
        ("e: x+=X;", (1, 5), "`x=INT`"),
        (
            "e: { f(\"}\"); } X;",
            (1, 4),
            "an action has its references alone",
        ),
        ("e: { a > b }? X;", (1, 4), "written `&{$x}`"),
        ("e: Add | INT; Add: e PLUS e;", (1, 15), "is a token"),
    ] {
        let found = faults(text);
        let told: Vec<String> = found.iter().map(|fault| fault.to_string()).collect();
        assert_eq!((found[0].line, found[0].column), place, "{text}: {told:?}");
        assert!(found[0].advice.contains(advice), "{text}: {told:?}");
        let many = text.contains("\"}\"");
        assert!(found.len() == 1 || many, "{text}: {told:?}");
    }
}

/// Words that ANTLR has for itself are names of rules too.
#[test]
fn words_are_names() {
    for name in [
        "grammar", "options", "catch", "finally", "mode", "import", "fragment", "returns",
    ] {
        let text = format!("{name}: X | e {name}; e: {name} Y;");
        assert!(read(text.as_bytes()).is_ok(), "{text}");
    }
}

/// Long texts of nothing but openings take no time to speak of.
#[test]
fn openings_without_ends() {
    for opening in ["{", "[", "'", "(", "/*", "#", "{ ;"] {
        let text = format!("e: {}", opening.repeat(20_000 / opening.len()));
        assert!(read(text.as_bytes()).is_err(), "{opening}");
    }
    let labels: String = (0..2_000).map(|at| format!("# A{at} |")).collect();
    let found = read(format!("e: {labels} X;").as_bytes()).expect("the notation");
    assert_eq!(found.warnings.len(), 2_000);
}

/// What stands in front of a colon is told one by one, and the alternatives behind it are read.
#[test]
fn all_of_a_rules_own() {
    let text = "e[int x] returns [int v]\nlocals [int w] @init { f(); }\n: '+' e ;\na b;";
    let places: Vec<_> = faults(text)
        .iter()
        .map(|fault| (fault.line, fault.column))
        .collect();
    assert_eq!(places, [(1, 2), (1, 10), (2, 1), (2, 16), (3, 3), (4, 3)]);
}

#[test]
fn faults_come_in_the_order_of_the_text() {
    let text = "e: a\u{a7} |;\na X;\nb: ( X;\nc: {X} {$};\n%kind tree;\nd: <o> X;\ne: X;\nf: Y;\n%preserve z;\n";
    let found = faults(text);
    let lines: Vec<usize> = found.iter().map(|fault| fault.line).collect();
    assert_eq!(lines, [1, 2, 3, 4, 4, 5, 6, 7]);
    let many: String = (0..30).map(|at| format!("r{at} X;\n")).collect();
    let found = faults(&many);
    let lines: Vec<usize> = found.iter().map(|fault| fault.line).collect();
    assert_eq!(lines, (1..=MOST_FAULTS).collect::<Vec<_>>());
}

#[test]
fn lines_are_shown_with_a_mark() {
    assert_eq!(shown("e:\n\ta b;\r\n", 2, 4), "     a b;\n       ^");
    assert_eq!(shown("\u{feff}e a;", 1, 3), "    e a;\n      ^");
    assert_eq!(shown("e: a", 1, 5), "    e: a\n        ^");
    let long = format!("{}!{}", "x".repeat(500), "y".repeat(500));
    let expected = format!(
        "    {}!{}\n    {}^",
        "x".repeat(60),
        "y".repeat(39),
        " ".repeat(60)
    );
    assert_eq!(shown(&long, 1, 501), expected);
}

#[test]
fn what_may_be_meant_otherwise() {
    for (text, expected) in [
        ("e: X;", vec![]),
        (
            "e: {$X}? X {}* Y | &{}? {}\n{}??;",
            vec![
                "line 1: `{..}?` is read as an action that may be left out; a predicate is written `&{..}`",
            ],
        ),
    ] {
        assert_eq!(warnings(text), expected, "{text}");
    }
}

/// What stands behind `#` is an element. A name there is warned of wherever it may be a label's, and `#:` says that it is none.
#[test]
fn names_behind_labels() {
    let told = |text: &str| -> Vec<String> {
        let all = warnings(text);
        let parts = all
            .iter()
            .map(|own| own.split_once(" is read as an element; ").expect(own).0);
        parts.map(str::to_owned).collect()
    };
    for (text, expected) in [
        ("e: X\n | # Add e PLUS e;", vec!["line 2: `Add` behind `#`"]),
        (
            "e: # Add e PLUS e\n | # Add e MINUS e\n | Add;",
            vec!["line 1: `Add` behind `#`", "line 2: `Add` behind `#`"],
        ),
        ("e: # INT | INT;", vec!["line 1: `INT` behind `#`"]),
        ("e: # Empty | X;", vec!["line 1: `Empty` behind `#`"]),
        ("e: # add e PLUS e | X;", vec!["line 1: `add` behind `#`"]),
        ("e: X ( # Sub Y );", vec!["line 1: `Sub` behind `#`"]),
        ("e: #: INT | #: Add e | #: add | ( #: X );", vec![]),
        (
            "e: # e PLUS e | # a X; a: # x=INT | # x@5=Y | # _ | # T%7;",
            vec![],
        ),
        ("e: # | # <o=1> X | # ( X ) | # ^30 Y;", vec![]),
    ] {
        assert_eq!(told(text), expected, "{text}");
    }
}

/// What is printed of such alternatives is read again without a warning.
#[test]
fn labelled_alternatives_read_back() {
    let text = "e: #: INT PLUS e | #: add | # e X | #: Y | # x=Y | # <o=1> X | #;\n";
    let first = read(text.as_bytes()).expect("the notation").grammar;
    assert!(
        first.sheet.rules[0]
            .alternatives
            .iter()
            .all(|own| own.labelled)
    );
    let printed = print(&first, Style::Plain);
    assert_eq!(printed, text);
    assert_eq!(warnings(&printed), [""; 0]);
}

/// A carriage return alone ends a line, so that a comment does not hide the rules behind it.
#[test]
fn carriage_returns_alone() {
    let text = "// head\re: a | INT; // tail\ra: e PLUS;\r";
    let found = read(text.as_bytes()).expect("the notation");
    assert_eq!(found.grammar.sheet.rules.len(), 2);
    assert_eq!(
        warnings(text),
        [
            "line 1: a carriage return without a line feed ends this line, and a comment in it; end lines with line feeds"
        ]
    );
    assert_eq!(warnings("// head\r\ne: X;\r\n"), [""; 0]);
    let found = faults("// head\re: X;\ra X;\r");
    assert_eq!((found[0].line, found[0].column), (3, 3));
}
