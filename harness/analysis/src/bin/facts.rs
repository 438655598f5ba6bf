//! `facts --count N --seed S`: the proved facts against the second opinion, on all stored sheets and on N generated ones.

use std::process::ExitCode;
use std::time::Instant;

use analysis::proved::proved;
use analysis::run::{Difference, Run, Tally};
use analysis::stored::stored;
use reader::options::{Options, options};

fn compared(options: &Options) -> Result<Tally, String> {
    let mut run = Run::new(&proved);
    for (turn, sheet) in (0..).zip(stored()?) {
        let name = format!("stored sheet {}", sheet.name);
        run.ask(name, &sheet.bytes, turn)
            .map_err(Difference::told)?;
    }
    println!("stored sheets compared {}", run.tally.sheets());
    run.seeds(options.seed, options.count)
        .map_err(Difference::told)?;
    Ok(run.tally)
}

fn show(tally: &Tally, options: &Options, began: Instant) {
    println!(
        "generated sheets compared {} (seed {})",
        options.count, options.seed
    );
    for refusal in [1, 3, 4, 5, 6] {
        println!("refused {refusal}: {}", tally.answers[refusal]);
    }
    println!("time {:.1} s", began.elapsed().as_secs_f64());
    println!(
        "agreed on {} sheets in both readings: {} accepted, {} with cycles",
        tally.sheets(),
        tally.answers[0],
        tally.cyclic
    );
}

fn main() -> ExitCode {
    let options = match options() {
        Ok(options) => options,
        Err(what) => {
            eprintln!("facts: {what}\nusage: facts [--count N] [--seed S]");
            return ExitCode::from(2);
        }
    };
    let began = Instant::now();
    match compared(&options) {
        Ok(tally) => {
            show(&tally, &options, began);
            ExitCode::SUCCESS
        }
        Err(what) => {
            eprintln!("facts: {what}");
            ExitCode::FAILURE
        }
    }
}
