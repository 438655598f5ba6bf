//! How the program ends where there is no answer.

mod run;

use run::{Folder, join, join_into};

#[test]
fn wrong_texts() {
    let folder = Folder::new("texts");
    for (name, text, expected) in [
        (
            "a.grammar",
            &b"e: a |\n  INT\na: e;\n"[..],
            "line 3, column 2: expected an element, `|` or `;`, found `:`",
        ),
        (
            "b",
            b"",
            "line 1, column 1: expected a rule, found the end of the text",
        ),
        (
            "c",
            b"// nothing\n",
            "line 2, column 1: expected a rule, found the end of the text",
        ),
        (
            "d.grammar",
            b"e: \xff;",
            "line 1, column 4: expected text in UTF-8, found the byte 0xff",
        ),
        (
            "e.grammar",
            b"e\0: a;",
            "line 1, column 2: expected a name, a number or a mark of the notation, found `\\u{0}`",
        ),
        (
            "f",
            &[b' '; 1 << 20],
            "line 1, column 1048577: expected a rule, found the end of the text",
        ),
        (
            "g",
            &[b' '; (1 << 20) + 1],
            "line 1, column 1048577: expected a text of at most 1048576 bytes, found more",
        ),
    ] {
        let path = folder.write(name, text);
        for options in [&[][..], &["--listing"], &["--textbook"]] {
            let run = join(&[&[&path[..]], options].concat());
            run.stopped(2, &format!("{path}: {expected}"));
        }
    }
}

#[test]
fn wrong_tables_of_names() {
    let folder = Folder::new("tables");
    let mut sheet = [0; 32];
    sheet[0] = 2;
    let sheet = folder.write("empty.sheet", &sheet);
    let names = folder.write("names", b"%names e=1\n e=2;");
    let run = join(&[&sheet, "--names", &names]);
    let expected = "line 2, column 2: expected a name and a number that are not in use yet, found `e`\n     e=2;\n     ^\n";
    run.stopped(2, &format!("{names}: {expected}"));
    let missing = folder.path("missing");
    let run = join(&[&sheet, "--names", &missing]);
    run.stopped(
        3,
        &format!("cannot read {missing}: No such file or directory (os error 2)"),
    );
    assert!(
        join(&[&sheet])
            .answer()
            .ends_with("// joined: none\n// removed: none\n\n")
    );
}

#[test]
fn refusals_say_their_number_and_meaning() {
    let folder = Folder::new("refusals");
    let length =
        "1: the sheet's length is under 32 bytes, over 32,768 or not a multiple of 4; it has";
    let row = |count: usize, text: &str| vec![text; count].join(" | ");
    let seven = format!("e: a | INT; a: {}; b: {};", row(32, "b T"), row(33, "e T"));
    let nine = format!("e: a | INT; a: {}; b: {};", row(31, "b T"), row(33, "e T"));
    let long = format!("e: {};", row(2000, "X"));
    for (name, text, expected) in [
        ("empty.sheet", &b""[..], format!("{length} 0 bytes")),
        ("zeros", &[0; 33], format!("{length} 33 bytes")),
        ("large", &[0; 2 << 20], format!("{length} 1048577 bytes")),
        (
            "long.grammar",
            long.as_bytes(),
            "1: its sheet has 96048 bytes of at most 32768; 96016 of them are those of `e` (line 1), \
             which has 2000 alternatives"
                .to_owned(),
        ),
        ("kind", &[0; 32], "3: the trailer is bad: ".to_owned()),
        (
            "ids.grammar",
            b"e: @7 X | @7 Y;",
            "5: two alternatives have the id 7: line 1, column 4 and line 1, column 11".to_owned(),
        ),
        (
            "counters.grammar",
            b"%counters 0 0 0 0 0; e: X;",
            "6: the id 10 in line 1, column 25 is not below the counter of alternatives, which line 1 sets to 0".to_owned(),
        ),
        (
            "seven.grammar",
            seven.as_bytes(),
            "7: the cycle of `e` (line 1), `a` (line 1), `b` (line 1) is too large to be joined: the list of \
             alternatives of `e` (line 1) grows past 1,024 alternatives"
                .to_owned(),
        ),
        (
            "eight.grammar",
            b"%counters 4294967295 25 0 0 0; e: a | INT; a: e X;",
            "8: the counters in line 1 leave too few ids for joining the cycle of `e` (line 1), `a` (line 1)"
                .to_owned(),
        ),
        (
            "nine.grammar",
            nine.as_bytes(),
            "9: with the cycle of `e` (line 1), `a` (line 1), `b` (line 1) joined in `e` (line 1) the sheet has \
             over 32768 bytes"
                .to_owned(),
        ),
    ] {
        let path = folder.write(name, text);
        let what = match name.ends_with(".grammar") {
            true => name,
            false => "the sheet",
        };
        let number = expected.split(':').next().unwrap().to_owned();
        let expected = format!("{what} is refused by {expected}");
        let sheet = folder.path("unwritten");
        join(&[&path, "--sheet", &sheet]).stopped(1, &expected);
        assert!(!folder.has("unwritten"));
        let listed = join(&["--listing", &path]);
        assert_eq!(listed.out, format!("refused {number}\n"));
        assert_eq!(listed.status, 1);
        assert!(listed.said.starts_with(&format!("join: {expected}")));
    }
}

#[test]
fn files_that_cannot_be_read_or_written() {
    let folder = Folder::new("files");
    let grammar = folder.write("g.grammar", b"e: a | INT; a: e X;");
    let inside = folder.path("g.grammar/inside");
    let place = folder.path("");
    let place = place.trim_end_matches('/');
    join(&[place]).stopped(3, &format!("cannot read {place}: Is a directory"));
    join(&[&inside]).stopped(3, &format!("cannot read {inside}: "));
    for option in ["--sheet", "--trail", "--names"] {
        join(&[&grammar, option, place])
            .stopped(3, &format!("cannot write {place}: Is a directory"));
        join(&[&grammar, option, &inside]).stopped(3, &format!("cannot write {inside}: "));
    }
    for words in [&[&grammar[..]][..], &[&grammar, "--listing"], &["--help"]] {
        let run = join_into("/dev/full", words);
        run.stopped(
            3,
            "cannot write to standard output: No space left on device",
        );
    }
}

#[test]
fn wrong_use() {
    for (words, expected) in [
        (&[][..], "no grammar"),
        (&["--other"], "no option --other"),
        (&["a", "b"], "more than one grammar"),
        (&["a", "--sheet"], "--sheet takes a file"),
    ] {
        join(words).stopped(
            3,
            &format!("{expected}; join --help tells how it is used\n"),
        );
    }
}
