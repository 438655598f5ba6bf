//! The program `sheets`, as it is called.

use std::io::Write;
use std::process::{Command, Stdio};

fn call(arguments: &[&str], input: &[u8]) -> (bool, Vec<u8>) {
    let mut child = Command::new(env!("CARGO_BIN_EXE_sheets"))
        .args(arguments)
        .stdin(Stdio::piped())
        .stdout(Stdio::piped())
        .stderr(Stdio::null())
        .spawn()
        .expect("the program starts");
    // A program that needs no input may have ended by now.
    let _ = child.stdin.take().expect("a pipe").write_all(input);
    let output = child.wait_with_output().expect("it ends");
    (output.status.success(), output.stdout)
}

fn done(arguments: &[&str], input: &[u8]) -> Vec<u8> {
    let (success, out) = call(arguments, input);
    assert!(success, "{arguments:?}");
    out
}

#[test]
fn a_sheet_goes_through_every_form() {
    let sheet = done(&["make"], b"e: a~9 | INT; a: e PLUS e;");
    assert_eq!(sheet.len(), 288);
    let shown = done(&["show"], &sheet);
    assert_eq!(shown, b"r_1: r_2~9 | T_3;\nr_2: r_1 T_4 r_1;\n");
    assert_eq!(done(&["make"], &shown), sheet);
    assert_eq!(
        done(&["plain"], &sheet),
        b"r_1: r_2 | T_3;\nr_2: r_1 T_4 r_1;\n"
    );
    let words = done(&["words"], &sheet);
    assert!(words.starts_with(b"1 1 0 2 10 0 0 0 1 20 9 3 "));
    assert_eq!(done(&["bytes"], &words), sheet);
}

#[test]
fn every_profile_that_is_named_can_be_generated() {
    let names = String::from_utf8(done(&["profiles"], b"")).expect("text");
    assert_eq!(names.lines().count(), 44);
    for name in names.lines() {
        let sheet = done(&["generate", name, "3"], b"");
        assert_eq!(sheet, done(&["generate", name, "3"], b""), "{name}");
        assert_ne!(sheet, done(&["generate", name, "4"], b""), "{name}");
    }
    assert!(!call(&["generate", "no-such", "3"], b"").0);
}
