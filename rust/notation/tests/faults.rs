//! Where a text is wrong, and what was expected there.

use notation::{end_of, parse, parse_bytes, parse_table};

fn fault(text: &str) -> String {
    let fault = parse(text).expect_err(text);
    fault.to_string()
}

#[test]
fn each_place_says_what_it_expects() {
    for (text, expected) in [
        ("e: a", "1:5 an element, `|` or `;` / the end of the text"),
        ("e a;", "1:3 `:` / `a`"),
        ("e: a |\n  INT\na: e;", "3:2 an element, `|` or `;` / `:`"),
        ("e: ( a;", "1:7 an element, `|` or `)` / `;`"),
        ("e: a );", "1:6 an element, `|` or `;` / `)`"),
        ("e: a???;", "1:7 an element, `|` or `;` / `?`"),
        ("e: - a;", "1:6 `;` / `a`"),
        ("e: ^7 ;", "1:7 an element / `;`"),
        ("e: e ^7;", "1:8 an element / `;`"),
        ("e: e^x;", "1:6 a number / `x`"),
        (
            "e: e^4294967295;",
            "1:6 a precedence from 0 to 4294967294 / `4294967295`",
        ),
        ("e: INT^3 X;", "1:7 a space / `^`"),
        ("e: ( X )?^3;", "1:10 a space / `^`"),
        ("e: e~7^3;", "1:7 a space / `^`"),
        ("e: x= ;", "1:7 an element / `;`"),
        ("e: _=INT;", "1:4 a label's name / `_`"),
        ("e: <o> a;", "1:6 `=` / `>`"),
        ("e: <o=1;", "1:8 `,` or `>` / `;`"),
        ("e: <5=1> a;", "1:5 an option's name / `5`"),
        ("e: a[];", "1:5 a number in brackets / `[]`"),
        ("e: a[5;", "1:7 `]` / `;`"),
        ("e: {INT};", "1:5 `$` or `}` / `INT`"),
        ("e: {$};", "1:6 the name that is referred to / `}`"),
        ("e: {$x.};", "1:8 an attribute's name or `?` / `}`"),
        ("e: &INT;", "1:5 `{` / `INT`"),
        ("e@x: a;", "1:2 `:` / `@`"),
        ("e: @x a;", "1:5 a number / `x`"),
        ("e !4: a;", "1:4 rule flags from 0 to 3 / `4`"),
        ("_: a;", "1:1 a rule's name / `_`"),
        ("e: a; e: b;", "1:7 a name that no rule has yet / `e`"),
        (
            "7: a;",
            "1:1 a rule, `%kind`, `%names`, `%preserve` or `%counters` / `7`",
        ),
        (
            "%other;",
            "1:1 a rule, `%kind`, `%names`, `%preserve` or `%counters` / `%other`",
        ),
        ("e: %kind;", "1:4 an element, `|` or `;` / `%kind`"),
        (
            "%kind tree;",
            "1:7 `lexer`, `parser` or `combined` / `tree`",
        ),
        ("%kind lexer e: a;", "1:13 `;` / `e`"),
        ("%preserve a b; a: X;", "1:13 the name of a rule / `b`"),
        ("%preserve |;", "1:11 a rule's name, a rule id or `;` / `|`"),
        ("%counters 1 2 3 4;", "1:18 a number / `;`"),
        ("%names e=0;", "1:10 a number from 1 to 4294967295 / `0`"),
        (
            "%names e=1 a=1;",
            "1:12 a name and a number that are not in use yet / `a`",
        ),
        (
            "%names e=1 e=2;",
            "1:12 a name and a number that are not in use yet / `e`",
        ),
        (
            "%names r=3; e: T%3;",
            "1:8 a name and a number that are not in use yet / `r`",
        ),
        (
            "e: T%0;",
            "1:4 a number of a name, from 1 to 4294967295 / `T%0`",
        ),
        (
            "e: r%4294967296;",
            "1:4 a number of a name, from 1 to 4294967295 / `r%4294967296`",
        ),
        ("e: a%3;", "1:5 an element, `|` or `;` / `%3`"),
        ("e: r%x;", "1:5 an element, `|` or `;` / `%x`"),
        (
            "e: a; %names a=2;",
            "1:14 a name and a number that are not in use yet / `a`",
        ),
        (
            "e: 4294967296;",
            "1:4 a number up to 4294967295 / `4294967296`",
        ),
        (
            "e: 'and;",
            "1:4 a name, a number or a mark of the notation / `'`",
        ),
        (
            "e: \u{a7};",
            "1:4 a name, a number or a mark of the notation / `\u{a7}`",
        ),
        (
            "e: \u{1b}[2J;",
            "1:4 a name, a number or a mark of the notation / `\\u{1b}`",
        ),
    ] {
        let (place, rest) = expected.split_once(' ').unwrap();
        let (line, column) = place.split_once(':').unwrap();
        let (wanted, found) = rest.split_once(" / ").unwrap();
        let whole = format!("line {line}, column {column}: expected {wanted}, found {found}");
        assert!(fault(text).starts_with(&whole), "{text:?}: {}", fault(text));
    }
}

/// Columns are characters, whatever their bytes; comments and lines in front are counted.
#[test]
fn places_are_those_of_the_text() {
    let text = "// \u{e9}\u{e9}\r\ne: a\n\t| INT // \u{e9}\n /\n;";
    let fault = parse(text).unwrap_err();
    assert_eq!((fault.line, fault.column, &fault.found[..]), (4, 2, "`/`"));
    assert_eq!(end_of("e: a"), (1, 5));
    assert_eq!(end_of("e: a;\n"), (2, 1));
    assert_eq!(end_of("\u{e9}\n\u{e9}\u{e9}"), (2, 3));
}

#[test]
fn limits_are_told_at_their_place() {
    let rules = |count: usize| {
        (0..count)
            .map(|at| format!("r{at}: X;\n"))
            .collect::<String>()
    };
    assert!(parse(&rules(128)).is_ok());
    let past = "line 129, column 1: expected at most 128 rules, found `r128`";
    assert_eq!(fault(&rules(129)), past);

    let deep = |depth: usize| format!("e: {} X {};", "(".repeat(depth), ")".repeat(depth));
    assert!(parse(&deep(8)).is_ok());
    let past = "line 1, column 12: expected blocks at most 8 deep, found `(`";
    assert_eq!(fault(&deep(9)), past);
    assert_eq!(fault(&deep(100_000)), past);
}

#[test]
fn long_findings_are_cut() {
    let text = format!("e: {}", "9".repeat(100));
    assert!(fault(&text).ends_with(&format!("found `{}..`", "9".repeat(40))));
}

#[test]
fn bytes_that_are_no_text() {
    let fault = parse_bytes(b"e: a;\n\xc3\xa9\xff").unwrap_err();
    assert_eq!(
        fault.to_string(),
        "line 2, column 2: expected text in UTF-8, found the byte 0xff"
    );
}

#[test]
fn tables_of_names() {
    let digest = format!("%sheet sha256_{}", "0".repeat(64));
    for (text, expected) in [
        (
            "%names a=1; e: a;",
            "line 1, column 13: expected `%sheet`, `%names` or `%attributes`, found `e`",
        ),
        (
            "%names a=1;",
            "line 1, column 12: expected `%sheet` and the digest of the sheet that has the names, found the end of the text",
        ),
        (
            "%sheet sha256_0;",
            "line 1, column 8: expected `sha256_` and 64 hexadecimal digits, found `sha256_0`",
        ),
        (
            "%sheet 5;",
            "line 1, column 8: expected `sha256_` and 64 hexadecimal digits, found `5`",
        ),
        (
            "%attributes label 5 x;",
            "line 1, column 13: expected `action` or `predicate`, found `label`",
        ),
        (
            "%attributes action 5 7;",
            "line 1, column 22: expected an attribute's name, `?` or `;`, found `7`",
        ),
        ("%names a 1;", "line 1, column 10: expected `=`, found `1`"),
        (
            "%names =1;",
            "line 1, column 8: expected a name or `;`, found `=`",
        ),
        (
            "%names a=1",
            "line 1, column 11: expected a name or `;`, found the end of the text",
        ),
    ] {
        let fault = parse_table(text.as_bytes()).expect_err(text);
        assert_eq!(fault.to_string(), expected);
    }
    let empty = parse_table(format!("{digest};").as_bytes()).unwrap();
    assert!(empty.names.is_empty());
    let long = parse_table(format!("{digest}0;").as_bytes());
    assert!(long.is_err());
}
