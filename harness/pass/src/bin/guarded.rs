//! `guarded --count N --seed S`: the proved pass on all stored sheets and on N generated ones, with everything that it is
//! lent between pages that nobody may touch. A byte read or written beside it ends the program, which names the sheet.

use std::process::ExitCode;

use analysis::stored::stored;
use pass::fenced::Yard;
use pass::fences::watch;
use pass::outcome::judged;
use pass::proved::PROVED;
use pass::run::sheet;
use reader::options::{Options, options_or};

const COUNT: u64 = 2_000;
/// Generated sheets between two lines that tell how far it is.
const PART: u64 = 1_000;

fn asked(options: &Options) -> Result<String, String> {
    let mut yard = Yard::default();
    let mut turn = 0;
    let mut ask = |name: String, bytes: &[u8]| {
        turn += 1;
        yard.ask(PROVED, &name, bytes, &judged(bytes), turn)
    };
    for sheet in stored()? {
        ask(format!("stored sheet {}", sheet.name), &sheet.bytes)?;
    }
    for index in 0..options.count {
        let name = format!("sheet {index} of seed {}", options.seed);
        ask(name, &sheet(options.seed, index))?;
        if (index + 1) % PART == 0 {
            println!("generated sheets asked about {}", index + 1);
        }
    }
    Ok(format!(
        "nothing beside what is lent was touched: {turn} sheets, {} calls of both entries",
        yard.calls
    ))
}

fn main() -> ExitCode {
    let options = match options_or(COUNT) {
        Ok(options) => options,
        Err(what) => {
            eprintln!("guarded: {what}\nusage: guarded [--count N] [--seed S]");
            return ExitCode::from(2);
        }
    };
    watch();
    match asked(&options) {
        Ok(told) => {
            println!("{told}");
            ExitCode::SUCCESS
        }
        Err(what) => {
            eprintln!("guarded: {what}");
            ExitCode::FAILURE
        }
    }
}
