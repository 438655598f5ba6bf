//! `compare --count N --seed S`: the proved reader against the second one on N sheets.

use reader::compare::{Disagreement, Tally, run};
use reader::options::{Options, options};
use reader::proved::proved;
use std::process::ExitCode;
use std::time::Instant;

fn show(tally: &Tally, options: &Options, began: Instant) {
    let seconds = began.elapsed().as_secs_f64();
    println!("sheets compared {} (seed {})", tally.sheets(), options.seed);
    println!("taken {}", tally.answers[0]);
    for refusal in [1, 3, 4, 5, 6] {
        println!("refused {refusal}: {}", tally.answers[refusal]);
    }
    println!("agreed {} in {seconds:.1} s", tally.sheets());
}

fn complain(differs: &Disagreement, options: &Options) {
    eprintln!(
        "compare: sheet {} of seed {}: {}",
        differs.index, options.seed, differs.what
    );
    let hex: String = differs.sheet.iter().map(|b| format!("{b:02x}")).collect();
    eprintln!("{hex}");
}

fn main() -> ExitCode {
    let options = match options() {
        Ok(options) => options,
        Err(what) => {
            eprintln!("compare: {what}\nusage: compare [--count N] [--seed S]");
            return ExitCode::from(2);
        }
    };
    let began = Instant::now();
    match run(&proved, options.seed, options.count) {
        Ok(tally) => {
            show(&tally, &options, began);
            ExitCode::SUCCESS
        }
        Err(differs) => {
            complain(&differs, &options);
            ExitCode::FAILURE
        }
    }
}
