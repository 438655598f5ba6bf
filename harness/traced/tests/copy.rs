//! The copy is the original with whole lines inserted that call a hook, and with
//! `behind.rs` at the end of one file, and it answers as the original does.

use std::fs;
use std::path::Path;

use sheets::blocks::ends_in_blocks;
use sheets::generate::PROFILES;
use sheets::tree::Sheet;
use traced::{COPIES, Limits};

fn upstream(file: &str) -> String {
    let folder = "../original/upstream/crates/antlr-rust-codegen/src/grammar";
    let path = Path::new(env!("CARGO_MANIFEST_DIR"))
        .join(folder)
        .join(file);
    fs::read_to_string(path).expect("a file of the original")
}

/// A statement that calls one hook and binds nothing that is used again.
fn calls_a_hook(line: &str) -> bool {
    let statement = line.trim_start();
    let call = statement.strip_prefix("let _cycle = ").unwrap_or(statement);
    call.starts_with("crate::hooks::") && call.ends_with(");") && call.matches(';').count() == 1
}

fn inserted(file: &str, copy: &str) -> usize {
    let original = upstream(file);
    assert!(
        !original.contains("hooks"),
        "{file} has a word of its own for hooks"
    );
    assert!(
        !original.contains("_cycle ="),
        "{file} has a name of its own like the guard's"
    );
    let (hooks, rest): (Vec<&str>, Vec<&str>) = copy
        .split_inclusive('\n')
        .partition(|line| line.contains("crate::hooks::"));
    assert!(
        hooks
            .iter()
            .all(|line| calls_a_hook(line.trim_end_matches('\n'))),
        "{hooks:?}"
    );
    let behind = match file {
        "mutual_recursion.rs" => include_str!("../behind.rs"),
        _ => "",
    };
    assert_eq!(
        rest.concat(),
        original + behind,
        "{file} without its insertions"
    );
    hooks.len()
}

#[test]
fn the_copy_differs_by_the_insertions_alone() {
    let counts = COPIES.map(|(file, copy)| inserted(file, copy));
    let list = fs::read_to_string(Path::new(env!("CARGO_MANIFEST_DIR")).join("insertions.txt"));
    let list = list.expect("the list of insertions");
    let listed = list
        .lines()
        .filter(|line| line.contains("crate::hooks::"))
        .count();
    assert_eq!(counts.iter().sum::<usize>(), listed);
    assert_eq!(listed, 19);
}

/// Limits that no run meets.
const NONE: Limits = Limits {
    alternatives: usize::MAX,
    elements: usize::MAX,
    options: usize::MAX,
    bytes: usize::MAX,
    entries: usize::MAX,
};

fn compare(sheet: &Sheet, what: &str) -> bool {
    let traced = traced::run(sheet, NONE);
    let unchanged = traced::quietly(|| std::panic::catch_unwind(|| original::run(sheet)));
    match (traced, unchanged) {
        (Ok((result, trace)), Ok(unchanged)) => {
            assert_eq!(result, unchanged.result, "{what}");
            assert_eq!(!trace.stages.is_empty(), unchanged.changed, "{what}");
            unchanged.changed
        }
        (Err(8), Err(payload)) => {
            assert!(traced::counter_panic(&*payload), "{what}");
            false
        }
        _ => panic!("{what}: one of them ends in a panic"),
    }
}

#[test]
fn the_copy_answers_as_the_original() {
    let mut joined = 0;
    for profile in PROFILES.iter().filter(|profile| profile.name != "near-7") {
        for seed in 0..60 {
            let what = format!("{} {seed}", profile.name);
            let sheet = ends_in_blocks(&profile.sheet(seed));
            joined += usize::from(compare(&sheet, &what));
        }
    }
    assert!(joined > 600, "{joined} joined");
}

#[test]
fn both_files_find_the_same_rules_nullable() {
    let mut nullable = 0;
    for profile in PROFILES.iter().filter(|profile| !profile.about_limits) {
        for seed in 0..60 {
            let sheet = ends_in_blocks(&profile.sheet(seed));
            if let Ok((result, trace)) = traced::run(&sheet, Limits::STANDARD)
                && sheet.kind == 2
            {
                let found = original::nullable_by_analysis(&result);
                assert_eq!(trace.nullable, found, "{} {seed}", profile.name);
                nullable += found.len();
            }
        }
    }
    assert!(nullable > 300, "{nullable} nullable rules");
}
