//! `plans --count N --seed S`: the proved planner against the original's decisions, on every cycle of all stored sheets
//! and of N generated ones.

use std::process::ExitCode;
use std::time::Instant;

use analysis::run::Difference;
use analysis::stored::stored;
use plans::proved::PROVED;
use plans::run::Run;
use plans::tally::Tally;
use reader::options::{Options, options};

/// Sheets between two lines of progress.
const PART: u64 = 20_000;

fn compared(options: &Options) -> Result<Tally, String> {
    let mut run = Run::new(PROVED);
    for sheet in stored()? {
        let name = format!("stored sheet {}", sheet.name);
        run.ask(name, &sheet.bytes).map_err(Difference::told)?;
    }
    println!("stored sheets compared {}", run.tally.sheets());
    let began = Instant::now();
    for from in (0..options.count).step_by(PART as usize) {
        let to = options.count.min(from + PART);
        run.seeds(options.seed, from..to)
            .map_err(Difference::told)?;
        let seconds = began.elapsed().as_secs_f64();
        println!(
            "generated sheets compared {to} (seed {}, {seconds:.1} s)",
            options.seed
        );
    }
    Ok(run.tally)
}

fn show(tally: &Tally) {
    for refusal in [1, 3, 4, 5, 6] {
        println!("refused {refusal}: {}", tally.answers[refusal]);
    }
    let [original, textbook] = &tally.outcomes;
    let sorts = &tally.sorts;
    println!(
        "accepted {}, decided otherwise by the textbook's reading {}",
        tally.answers[0], tally.parted
    );
    println!(
        "overfull by alternatives {}, elements {}, options {}",
        original.alternatives, original.elements, original.options
    );
    println!(
        "plans with a split {}, with options of a satellite {}, of over 64 steps or 256 alternatives {}, with a full list {}",
        sorts.split, sorts.options, sorts.long, sorts.full
    );
    println!(
        "plans with a hub of another id than the least {}, with a satellite that stays {}",
        sorts.other_hub, sorts.kept
    );
    println!(
        "sheets with a cycle and a preserved rule {}, and a label or reference in a block {}",
        tally.preserved, tally.nested
    );
    println!("cycles of sheets with the end of input: {}", tally.ends);
    println!("cycles by the textbook's reading: {textbook}");
    println!(
        "agreed on {} sheets in both readings; cycles: {original}",
        tally.sheets()
    );
}

fn main() -> ExitCode {
    let options = match options() {
        Ok(options) => options,
        Err(what) => {
            eprintln!("plans: {what}\nusage: plans [--count N] [--seed S]");
            return ExitCode::from(2);
        }
    };
    match compared(&options) {
        Ok(tally) => {
            show(&tally);
            ExitCode::SUCCESS
        }
        Err(what) => {
            eprintln!("plans: {what}");
            ExitCode::FAILURE
        }
    }
}
