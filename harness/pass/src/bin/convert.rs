//! `convert --count N --seed S`: the proved conversion against the second account of it, on all stored sheets as they were before
//! calls had a precedence and as they are, on those built to be deep and large, and on N generated old sheets.

use std::process::ExitCode;

use analysis::stored::stored;
use pass::built::hardest;
use pass::converted::Yard;
use pass::fences::watch;
use pass::old::{of_today, sheet, written};
use pass::program::{Fault, hex, in_parts, run};
use pass::proved::convert;
use reader::options::Options;

/// A yard with the sheets that it was asked about so far.
#[derive(Default)]
struct Run {
    yard: Yard,
    turn: usize,
}

impl Run {
    fn ask(&mut self, name: String, old: &[u8]) -> Result<(), Fault> {
        self.turn += 1;
        let asked = self.yard.ask(&convert, &name, old, self.turn);
        asked.map_err(|what| Fault {
            lines: format!("{}\n", hex(old)),
            last: format!("difference: {name}: {what}"),
        })
    }
}

fn compared(options: &Options) -> Result<Run, Fault> {
    let mut run = Run::default();
    for own in stored().expect("the stored answers") {
        if let Some(old) = of_today(&own.bytes) {
            run.ask(format!("stored sheet {}, in its old form", own.name), &old)?;
        }
        run.ask(format!("stored sheet {}", own.name), &own.bytes)?;
    }
    for (name, tree) in hardest() {
        run.ask(name.to_owned(), &written(&tree))?;
    }
    println!("stored sheets compared {}", run.yard.tally.sheets());
    in_parts(options, |numbers| {
        for index in numbers {
            let name = format!("sheet {index} of seed {}", options.seed);
            run.ask(name, &sheet(options.seed, index))?;
        }
        Ok::<(), Fault>(())
    })?;
    Ok(run)
}

fn main() -> ExitCode {
    watch();
    run("convert", |options| {
        let tally = compared(options)?.yard.tally;
        println!(
            "calls {}, with a buffer that is too short {}, with a small stack {}",
            tally.calls, tally.short, tally.small
        );
        println!("no difference on {} old sheets: {tally}", tally.sheets());
        Ok(())
    })
}
