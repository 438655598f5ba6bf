//! `plans-bench`: how long the proved code takes to plan a cycle, beside the time in which the original's `plan_cycle` does.

use std::hint::black_box;

use analysis::compare::WORK;
use plans::proved::nth;
use reader::clock::{found, median};
use sheets::codec::{bytes_of, encode};
use sheets::parse::sheet;
use sheets::tree::Sheet;
use traced::Limits;

/// How often the clock is looked at, for what takes long and for what does not.
const ROUNDS: [usize; 2] = [101, 2_001];
/// Microseconds; more is long.
const LONG: f64 = 500.0;

/// What is to be answered: `numbers[2]`, with the clause of a decline.
const PLANNED: (u32, u32) = (0, 0);
const BY_THE_BUDGET: (u32, u32) = (1, 4);
const OVERFULL: (u32, u32) = (2, 0);

/// Microseconds for one call, the median of many.
fn time(mut call: impl FnMut()) -> f64 {
    let once = median(3, 1, &mut call);
    median(ROUNDS[usize::from(once < LONG)], 1, call)
}

/// The time for the cycle of that number, and the answer's numbers.
fn asked(sheet: &[u8], cycle: u32) -> (f64, [u32; 8]) {
    let mut work = vec![0; WORK];
    let (mut numbers, mut removable) = ([0; 8], [0; 2]);
    let took = time(|| {
        nth(
            black_box(sheet),
            &mut work,
            0,
            cycle,
            &mut numbers,
            &mut removable,
        )
    });
    (took, numbers)
}

fn original(tree: &Sheet) -> f64 {
    let mut took = 0.0;
    traced::planning(tree, Limits::STANDARD, &mut |plan| took = time(plan));
    took
}

/// For a grammar of one cycle: how many times as long the original's plan takes.
fn show(name: &str, (what, clause): (u32, u32), grammar: &str) -> f64 {
    let tree = sheet(grammar);
    let bytes = bytes_of(&encode(&tree));
    let (whole, numbers) = asked(&bytes, 0);
    assert_eq!(
        (numbers[2], numbers[4]),
        (what, clause),
        "{name}: {numbers:?}"
    );
    // A cycle that is not there: all is read and found, and nothing planned.
    let (without, numbers) = asked(&bytes, 1);
    assert_eq!(numbers[..3], [0, 1, 3], "{name}");
    let (planning, theirs) = (whole - without, original(&tree));
    println!(
        "{name:<28} {:>6} bytes {whole:>9.2} µs, planning {planning:>9.2} µs, the original's plan {theirs:>11.2} µs, \
         {:.1} times as long",
        bytes.len(),
        theirs / planning
    );
    theirs / planning
}

fn options(from: usize, count: usize) -> String {
    let all: Vec<String> = (from..from + count).map(|at| format!("o_{at}=1")).collect();
    format!("<{}>", all.join(","))
}

fn many(alternative: &str, count: usize) -> String {
    vec![alternative; count].join(" | ")
}

fn chain(rules: usize) -> String {
    let next = |at| if at == rules { 1 } else { at + 1 };
    let rule = |at| match at {
        1 => "r_1: r_2 A | B;".to_owned(),
        _ => format!("r_{at}: r_{} A;", next(at)),
    };
    (1..=rules).map(rule).collect()
}

/// So many alternatives in both rules; the satellite reaches itself.
fn looped(alternatives: usize) -> String {
    let again = many("a PLUS", alternatives - 3);
    format!("e: a | INT; a: {again} | e MINUS;")
}

fn main() {
    let (front, behind) = (options(1, 1_024), options(2_000, 1_024));
    let optional = "a? ".repeat(32);
    let (dots, tail) = (". ".repeat(250), options(1, 63));
    let cases = [
        (
            "2,048 options",
            PLANNED,
            format!("e: {front} a | INT; a: {behind} e PLUS;"),
        ),
        ("a loop of 5 alternatives", BY_THE_BUDGET, looped(5)),
        ("a loop of 6 alternatives", BY_THE_BUDGET, looped(6)),
        (
            "65 steps declined",
            BY_THE_BUDGET,
            format!("e: {optional} DOTS | a | INT; a: e PLUS;"),
        ),
        ("a chain of 127 satellites", PLANNED, chain(128)),
        (
            "7 by alternatives",
            OVERFULL,
            format!(
                "e: a | INT; a: {}; b: {};",
                many("b T", 32),
                many("e T", 32)
            ),
        ),
        ("7 by elements, in a loop", OVERFULL, looped(8)),
        (
            "7 by elements, in one step",
            OVERFULL,
            format!("e: a {dots} | INT; a: {};", many("e PLUS", 33)),
        ),
        (
            "7 by options, in one step",
            OVERFULL,
            format!("e: {tail} a | INT; a: {};", many("e PLUS", 33)),
        ),
    ];
    let ratios = cases.map(|(name, answer, grammar)| show(name, answer, &grammar));
    println!("{}", found(&ratios, "the original's plan takes"));
}
