//! The program as a person uses it.

mod run;

use run::{Folder, join};

const WORKED: &str = "e: a | INT; a: e PLUS e;";

fn rules(printed: &str) -> Vec<&str> {
    let lines = printed.lines();
    lines
        .filter(|line| !line.is_empty() && !line.starts_with("//"))
        .collect()
}

/// The lines of a joined rule, without spaces more than one.
fn squeezed(printed: &str) -> Vec<String> {
    let one = |line: &str| line.split_whitespace().collect::<Vec<_>>().join(" ");
    rules(printed).into_iter().map(one).collect()
}

#[test]
fn the_first_worked_grammar() {
    let folder = Folder::new("worked");
    let grammar = folder.write("worked.grammar", WORKED.as_bytes());
    let printed = join(&[&grammar]).answer();
    let expected = [
        "e:",
        "e PLUS e // level 2, binary; slot e 1, origin a 1",
        "| INT // level 1, primary; slot e 2, untouched",
        ";",
    ];
    assert_eq!(squeezed(&printed), expected);
    for line in [
        "// joined: e",
        "// removed: a",
        "// cycles joined: 1; cycles left: 0; warnings: 0",
    ] {
        assert!(printed.lines().any(|found| found == line), "{line}");
    }
    let again = folder.write("again", printed.as_bytes());
    assert!(
        join(&["--listing", &again])
            .answer()
            .starts_with("ok 0 0\n")
    );
}

/// Both alternatives carry 0 and are taken from the same two; only the slots part what comes of them.
#[test]
fn slots_are_told_where_carried_numbers_do_not_tell() {
    let folder = Folder::new("slots");
    let grammar = folder.write("slots.grammar", b"e: a | a | INT; a: e X | e Y;");
    let expected = [
        "e:",
        "e X // level 5, suffix; slot e 1 (1 of 2), origin a 1; warning 1",
        "| e Y // level 4, suffix; slot e 1 (2 of 2), origin a 2; warning 1",
        "| e X // level 3, suffix; slot e 2 (1 of 2), origin a 1; warning 2",
        "| e Y // level 2, suffix; slot e 2 (2 of 2), origin a 2; warning 2",
        "| INT // level 1, primary; slot e 3, untouched",
        ";",
    ];
    assert_eq!(squeezed(&join(&[&grammar]).answer()), expected);
    let carried = folder.write("carried.grammar", b"e: ~7 a | ~8 INT; a: ~9 e X;");
    let expected = [
        "e:",
        "~7 e X // level 2, suffix; slot e 1, origin a 1",
        "| ~8 INT // level 1, primary; slot e 2, untouched",
        ";",
    ];
    assert_eq!(squeezed(&join(&[&carried]).answer()), expected);
}

#[test]
fn attributes_of_copied_actions_are_kept() {
    let folder = Folder::new("attributes");
    let text = b"e: a? x=INT {$x.text $x} &{$e::depth} | INT; a: e X;";
    let grammar = folder.write("a.grammar", text);
    let lines = squeezed(&join(&[&grammar]).answer());
    assert!(lines[1].starts_with("e X x=INT {$x.text $x} &{$e::depth} // level 3, suffix; "));
    assert!(lines[2].starts_with("| x=INT {$x.text $x} &{$e::depth} // level 2, primary; "));
}

#[test]
fn names_go_with_a_sheet() {
    let folder = Folder::new("names");
    let grammar = folder.write("worked.grammar", WORKED.as_bytes());
    let (sheet, names) = (folder.path("back.sheet"), folder.path("back.names"));
    let printed = join(&["--sheet", &sheet, &grammar, "--names", &names]).answer();
    let digest = sha256::hex(&folder.read("back.sheet"));
    let table = String::from_utf8(folder.read("back.names")).unwrap();
    let tail =
        format!("%sheet sha256_{digest};\n%names\n    e=1\n    a=2\n    INT=3\n    PLUS=4\n;\n");
    assert!(table.ends_with(&tail), "{table}");
    assert!(printed.contains(&format!("sheet handed back: SHA-256 {digest}, 216 bytes")));

    let named = join(&[&sheet, "--names", &names]).answer();
    assert_eq!(rules(&named), ["e: e PLUS e | INT;"]);
    assert!(named.contains(&format!("sheet handed in: SHA-256 {digest}")));
    assert_eq!(
        rules(&join(&[&sheet]).answer()),
        ["r%1: r%1 T%4 r%1 | T%3;"]
    );
    assert_eq!(
        folder.read("back.names"),
        table.as_bytes(),
        "it is read, not written"
    );
}

#[test]
fn the_trail_is_written_as_the_pass_has_it() {
    let folder = Folder::new("trail");
    let grammar = folder.write("worked.grammar", WORKED.as_bytes());
    let trail = folder.path("trail");
    let listing = join(&["--listing", "--trail", &trail, &grammar]).answer();
    let words = folder.read("trail");
    let words: Vec<String> = words
        .chunks_exact(4)
        .map(|four| u32::from_le_bytes(four.try_into().unwrap()).to_string())
        .collect();
    let entries: Vec<String> = words
        .chunks_exact(4)
        .map(|own| format!("t {}", own.join(" ")))
        .collect();
    let told: Vec<&str> = listing
        .lines()
        .filter(|line| line.starts_with('t'))
        .collect();
    assert_eq!(entries, told);
    assert_eq!(told.len(), 5);
}

/// SPECIFICATION 15.20, and blocks, kinds and quantifiers.
#[test]
fn listings() {
    let folder = Folder::new("listings");
    let worked = folder.write("worked.grammar", WORKED.as_bytes());
    let expected = "ok 1 1\nr 1 1\na 0 13\ne 0 25 3 0 1\ne 0 26 4 0 4\ne 0 27 3 0 1\na 0 11\ne 0 21 4 0 3\n\
                    t 2 13 1 12\nt 3 25 2 22\nt 3 26 2 23\nt 3 27 2 24\nt 1 1 1 1\n";
    assert_eq!(join(&[&worked, "--listing"]).answer(), expected);
    let nested = folder.write("nested.grammar", b"e: ( a* | ( .+? ) | - )? {} &{} _;");
    assert_eq!(join(&[&nested, "--listing"]).status, 2, "`-` stands alone");
    let nested = folder.write("nested.grammar", b"e: ( a* | ( .+? ) )? {} &{} _ ( - );");
    let expected = "ok 0 0\nr 1 1\na 0 10\ne 0 20 6 1 0\na 1 11\ne 1 21 3 3 2\na 1 12\ne 1 22 6 0 0\na 2 13\n\
                    e 2 23 5 6 0\ne 0 24 1 0 0\ne 0 25 2 0 0\ne 0 26 0 0 0\ne 0 27 6 0 0\n";
    assert_eq!(join(&[&nested, "--listing"]).answer(), expected);
}

#[test]
fn cycles_left_are_told_with_their_clause() {
    let folder = Folder::new("left");
    let grammar = folder.write("two.grammar", b"e: a X; a: e Y; f: g {$g} | X; g: f Y;");
    let printed = join(&[&grammar]).answer();
    let joined = printed.replace("\n//  ", "");
    assert!(
        joined.contains("\n// cycle left: e (line 1), a (line 1); clause 1, no hub: "),
        "{printed}"
    );
    let front = "\n// cycle left: f (line 1), g (line 1); clause 5, a dangling reference: ";
    assert!(joined.contains(front), "{printed}");
    assert!(printed.contains("cycles left: 2"));
    assert!(printed.lines().all(|line| line.len() <= 110));
}

#[test]
fn readings_part() {
    let folder = Folder::new("readings");
    let grammar = folder.write("g.grammar", b"e: a | INT; a: e PLUS | NAME? e MINUS;");
    let original = join(&[&grammar]).answer();
    assert!(original.contains("// options: none; the original's reading of left corners\n"));
    assert!(original.contains("// 1 plan, 1 step\n"));
    let textbook = join(&[&grammar, "--textbook"]).answer();
    assert!(textbook.contains("// options: --textbook; the textbook's reading of left corners\n"));
    assert!(textbook.contains("// 0 plans, 0 steps\n"));
    assert!(textbook.contains("// cycle left: e (line 1), a (line 1); clause 11, "));
}

#[test]
fn other_units_and_unknown_names() {
    let folder = Folder::new("units");
    for (kind, told) in [("lexer", "a lexer unit"), ("combined", "a combined unit")] {
        let text = format!("%kind {kind}; {WORKED}");
        let grammar = folder.write("unit.grammar", text.as_bytes());
        let printed = join(&[&grammar]).answer();
        assert!(printed.contains(&format!("// {told}, in which no cycle is joined\n")));
        assert_eq!(rules(&printed).len(), 3);
    }
    let grammar = folder.write("unknown.grammar", b"e: f ( g | f ) e;");
    let printed = join(&[&grammar]).answer();
    assert!(printed.contains("// read as symbols, since no rule has the name: f, g\n"));
}

/// No folder, no time, no order of running.
#[test]
fn the_same_file_gives_the_same_bytes() {
    let (one, two) = (Folder::new("one"), Folder::new("two"));
    let grammar = one.write("a.grammar", WORKED.as_bytes());
    let same = two.write("a.grammar", WORKED.as_bytes());
    let printed = join(&[&grammar]).answer();
    assert_eq!(join(&[&same]).answer(), printed);
    let version = env!("CARGO_PKG_VERSION");
    assert!(printed.starts_with(&format!("// join {version}\n// cycles joined: 1; ")));
}

#[test]
fn help() {
    let printed = join(&["--help"]).answer();
    for option in [
        "--textbook",
        "--listing",
        "--strict",
        "--version",
        "--sheet FILE",
        "--trail FILE",
        "--names FILE",
        "--convert OLD NEW",
        "--help",
    ] {
        assert!(printed.contains(option), "{option}");
    }
    assert!(printed.lines().all(|line| line.len() <= 110));
}
