//! `profiles COUNT`: what the first seeds of each profile of the generator lead to, how many of its sheets have two names of one
//! remainder modulo 65,536, and how many of its calls have which word for their precedence, if not 0.

use std::collections::BTreeMap;
use std::process::ExitCode;

use oracle::ask;
use sheets::tree::Sheet;
use sheets::walk::{precedences, shares_a_remainder};
use sheets::{codec, generate};

/// What a sheet has, whatever it leads to.
fn of_sheet(mut sheet: Sheet, count: &mut impl FnMut(String)) {
    if shares_a_remainder(&sheet) {
        count("one remainder".to_owned());
    }
    precedences(&mut sheet, &mut |word| {
        if *word != 0 {
            count(format!("calls of precedence word {word}"));
        }
    });
}

fn outcomes(name: &str, seeds: u64) -> BTreeMap<String, usize> {
    let mut counts = BTreeMap::new();
    let mut count = |what: String| *counts.entry(what).or_default() += 1;
    for seed in 0..seeds {
        let bytes = generate::bytes(name, seed).expect("a profile");
        if let Ok(sheet) = codec::tree(&bytes) {
            of_sheet(sheet, &mut count);
        }
        match ask(&bytes) {
            Ok(done) => {
                count(format!("plans {}", done.plans()));
                for decline in &done.declined {
                    count(format!("clause {:2}", decline.clause));
                }
            }
            Err(refusal) => count(format!("refused {refusal}")),
        }
    }
    counts
}

fn main() -> ExitCode {
    let seeds = std::env::args().nth(1).and_then(|text| text.parse().ok());
    let Some(seeds) = seeds else {
        eprintln!("usage: profiles COUNT");
        return ExitCode::FAILURE;
    };
    for name in generate::names() {
        let counts = outcomes(name, seeds);
        let parts: Vec<String> = counts
            .iter()
            .map(|(what, n)| format!("{what}: {n}"))
            .collect();
        println!("{name}: {}", parts.join(", "));
    }
    ExitCode::SUCCESS
}
