//! What the comparing programs have in common: what they are told, and what they print.

use std::ops::Range;
use std::process::ExitCode;
use std::time::Instant;

use analysis::run::Difference;
use reader::options::{Options, options};

/// Sheets between two lines of progress.
const PART: u64 = 20_000;

/// What is printed of a difference, and the last line.
pub struct Fault {
    pub lines: String,
    pub last: String,
}

impl From<Difference> for Fault {
    fn from(difference: Difference) -> Fault {
        Fault {
            last: format!("difference: {}: {}", difference.name, difference.what),
            lines: difference.told(),
        }
    }
}

pub fn hex(bytes: &[u8]) -> String {
    bytes.iter().map(|byte| format!("{byte:02x}")).collect()
}

/// Runs a comparison with what the program is told.
pub fn run(name: &str, compared: impl Fn(&Options) -> Result<(), Fault>) -> ExitCode {
    let options = match options() {
        Ok(options) => options,
        Err(what) => {
            eprintln!("{name}: {what}\nusage: {name} [--count N] [--seed S]");
            return ExitCode::from(2);
        }
    };
    match compared(&options) {
        Ok(()) => ExitCode::SUCCESS,
        Err(Fault { lines, last }) => {
            println!("{lines}{last}");
            ExitCode::FAILURE
        }
    }
}

/// The numbers of the run in parts, each told once it is done.
pub fn in_parts<E>(
    options: &Options,
    mut part: impl FnMut(Range<u64>) -> Result<(), E>,
) -> Result<(), E> {
    let began = Instant::now();
    for from in (0..options.count).step_by(PART as usize) {
        let to = options.count.min(from + PART);
        part(from..to)?;
        let seconds = began.elapsed().as_secs_f64();
        println!(
            "generated sheets compared {to} (seed {}, {seconds:.1} s)",
            options.seed
        );
    }
    Ok(())
}
