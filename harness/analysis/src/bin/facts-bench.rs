//! `facts-bench`: how long the proved crate takes for the facts of a sheet, beside the time in which it reads the sheet
//! and that of a copy of the same bytes.

use std::hint::black_box;

use analysis::compare::{Outputs, WORK};
use analysis::facts::Facts;
use analysis::proved::proved;
use reader::clock::{found, time};
use sheets::codec::{bytes_of, encode};
use sheets::parse::sheet;
use sheets::tree::Sheet;

/// The words of the largest sheet.
const MOST: usize = 8_192;
/// The words of a token.
const TOKEN: usize = 7;

/// A grammar of `rules` rules in at most `words` words, filled up with tokens; `next` is the rule in front in each.
fn grammar(rules: usize, words: usize, next: fn(usize) -> Option<usize>) -> Sheet {
    let written = |tokens: usize| {
        let own = |at| tokens / rules + usize::from(at < tokens % rules);
        let all = (0..rules).map(|at| rule(at, next(at), own(at)));
        sheet(&all.collect::<String>())
    };
    let room = words - encode(&written(0)).len();
    written(room / TOKEN)
}

/// Two alternatives with the next rule in front, the second one in a block.
fn rule(at: usize, next: Option<usize>, tokens: usize) -> String {
    let front = next.map_or("START".to_owned(), |next| format!("r_{}", next + 1));
    let filled = "B ".repeat(tokens);
    format!("r_{}: x={front} PLUS | ({front} A) {filled};", at + 1)
}

/// The time of the call, and its numbers.
fn asked(sheet: &[u8]) -> (f64, [u32; 3]) {
    let mut work = vec![0; WORK];
    let mut found = Facts::NONE;
    let took = time(sheet, || {
        let outputs = Outputs {
            numbers: &mut found.numbers,
            marks: &mut found.marks,
            calls: &mut found.calls,
            corners: &mut found.corners,
            cycles: &mut found.cycles,
        };
        proved(black_box(sheet), &mut work, 0, outputs);
    });
    (took, found.numbers)
}

/// How many times as long as the reading alone the call takes.
fn show(name: &str, cycles: u32, tree: &Sheet) -> f64 {
    let sheet = bytes_of(&encode(tree));
    let (finding, numbers) = asked(&sheet);
    assert_eq!(numbers, [0, tree.rules.len() as u32, cycles], "{name}");

    // The last id is no longer below its counter: refusal 6, told once all is read.
    let mut refused = tree.clone();
    refused.counters.alternative -= 1;
    let (reading, numbers) = asked(&bytes_of(&encode(&refused)));
    assert_eq!(numbers, [6, 0, 0], "{name}");

    let mut copy = vec![0; sheet.len()];
    let copying = time(&sheet, || {
        black_box(&mut copy).copy_from_slice(black_box(&sheet))
    });
    println!(
        "{name:<24} {:>6} bytes {finding:>9.2} µs, read in {reading:.2} µs, copied in {copying:.2} µs",
        sheet.len()
    );
    finding / reading
}

fn main() {
    let rings_of_ten = |at| Some(at - at % 10 + (at + 1) % 10);
    let downwards = |at| (at < 99).then(|| at + 1);
    let ring = |at| Some((at + 1) % 128);
    let ratios = [
        show(
            "30 rules, three cycles",
            3,
            &grammar(30, 2_816, rings_of_ten),
        ),
        show("100 rules, no cycle", 0, &grammar(100, MOST, downwards)),
        show("a ring of 128 rules", 1, &grammar(128, MOST, ring)),
    ];
    println!(
        "{} as the reading alone",
        found(&ratios, "reading and facts take")
    );
}
