//! The program `oracle`, as it is called.

use std::io::Write;
use std::process::{Command, Stdio};

use oracle::examples::examples;
use sheets::codec::bytes_of;

fn call(arguments: &[&str], input: &[u8]) -> (bool, Vec<u8>) {
    let mut child = Command::new(env!("CARGO_BIN_EXE_oracle"))
        .args(arguments)
        .stdin(Stdio::piped())
        .stdout(Stdio::piped())
        .stderr(Stdio::null())
        .spawn()
        .expect("the program starts");
    child
        .stdin
        .take()
        .expect("a pipe")
        .write_all(input)
        .expect("it reads");
    let output = child.wait_with_output().expect("it ends");
    (output.status.success(), output.stdout)
}

fn text(arguments: &[&str], input: &[u8]) -> String {
    let (success, out) = call(arguments, input);
    assert!(success, "{arguments:?}");
    String::from_utf8(out).expect("text")
}

#[test]
fn case_1_by_each_command() {
    let case_1 = &examples()[0].bytes;
    let result = [
        1, 1, 0, 2, 13, 0, 0, 0, 3, 25, 0, 3, 0, 0, 0, 1, 0, 0, 26, 0, 4, 0, 0, 0, 4, 27, 0, 3, 0,
        0, 0, 1, 0, 0, 11, 0, 0, 0, 1, 21, 0, 4, 0, 0, 0, 3, 2, 46, 0, 14, 28, 0, 0, 0,
    ];
    let trail = [
        2, 13, 1, 12, 3, 25, 2, 22, 3, 26, 2, 23, 3, 27, 2, 24, 1, 1, 1, 1,
    ];
    assert_eq!(call(&["result"], case_1), (true, bytes_of(&result)));
    assert_eq!(call(&["trail"], case_1), (true, bytes_of(&trail)));
    assert_eq!(text(&["origins"], case_1).lines().next(), Some("o 1 1 1 1"));
    assert_eq!(text(&["clauses"], case_1), "");
    assert!(text(&["full"], case_1).starts_with(&text(&["listing"], case_1)));
}

#[test]
fn refusals_are_listed_and_have_no_result() {
    assert_eq!(text(&["listing"], &[0; 28]), "refused 1\n");
    assert_eq!(text(&["full"], &[0; 32]), "refused 3\n");
    assert_eq!(call(&["result"], &[0; 32]), (false, Vec::new()));
}

#[test]
fn a_grammar_is_answered_in_its_own_names() {
    let joined = text(&["notation"], b"e: a? DOTS | INT; a: e PLUS;");
    assert_eq!(joined, "ok 1 2\ne: e PLUS DOTS | DOTS | INT;\n");
    let declined = text(&["notation"], b"e: a X; a: e Y;");
    assert_eq!(declined, "ok 0 0\ne: a X;\na: e Y;\nc 1 1 2\n");
    assert!(!call(&["notation"], b"e: a").0);
    assert!(!call(&["no-such-command"], b"").0);
}
