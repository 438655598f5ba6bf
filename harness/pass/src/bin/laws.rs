//! `laws --count N --seed S`: four laws, of the original and of the proved pass, on all stored sheets and on N generated
//! ones, in both readings: nothing to do with an own result; other names, other carried numbers, and other precedences, alike.

use std::process::ExitCode;

use analysis::stored::stored;
use pass::law_run::{Broken, Counts, LawRun, side_by_side};
use pass::program::{in_parts, run};
use pass::proved::PROVED;
use reader::options::Options;
use reader::random::Random;

fn compared(options: &Options) -> Result<Counts, Broken> {
    let mut run = LawRun::new(PROVED);
    let mut random = Random::new(options.seed);
    for sheet in stored().expect("the stored answers") {
        let name = format!("stored sheet {}", sheet.name);
        run.ask(name, &sheet.bytes, &mut random)?;
    }
    let mut counts = run.counts;
    println!("stored sheets compared {}", counts.sheets());
    in_parts(options, |numbers| {
        counts = counts.and(&side_by_side(PROVED, options.seed, numbers)?);
        Ok(())
    })?;
    Ok(counts)
}

fn show(counts: &Counts) {
    let [original, textbook] = &counts.answers;
    println!("calls of the proved pass {}", counts.calls);
    println!(
        "results of the original's reading that the textbook's joins {}, the other way round {}",
        counts.across[0], counts.across[1]
    );
    println!("by the textbook's reading: {textbook}");
    println!(
        "no breach on {} sheets in both readings: {original}; renamed {}, with other carried numbers {}, \
         with other precedences {}",
        counts.sheets(),
        counts.renamed,
        counts.carried,
        counts.raised
    );
}

fn main() -> ExitCode {
    run("laws", |options| {
        show(&compared(options)?);
        Ok(())
    })
}
