//! `pass --count N --seed S`: the proved pass against the original, on all stored sheets and on N generated ones, with
//! both its entries: the five numbers, and every byte of every buffer.

use std::process::ExitCode;

use analysis::run::Difference;
use analysis::stored::stored;
use pass::program::{in_parts, run};
use pass::proved::PROVED;
use pass::run::{Run, side_by_side};
use pass::tally::Tally;
use reader::options::Options;

fn compared(options: &Options) -> Result<Tally, Difference> {
    let mut run = Run::new(PROVED);
    for sheet in stored().expect("the stored answers") {
        run.ask(format!("stored sheet {}", sheet.name), &sheet.bytes)?;
    }
    let mut tally = run.tally;
    println!("stored sheets compared {}", tally.sheets());
    in_parts(options, |numbers| {
        tally = tally.and(&side_by_side(PROVED, options.seed, numbers)?);
        Ok(())
    })?;
    Ok(tally)
}

fn show(tally: &Tally) {
    let [original, textbook] = &tally.answers;
    println!(
        "calls {}, with a buffer that is too short {}",
        tally.calls, tally.short
    );
    println!(
        "with several plans {}, longest result {} bytes, longest trail {} bytes",
        original.again, tally.result, tally.trail
    );
    println!(
        "with a symbol that may be absent {}, answered otherwise by the textbook's reading {}",
        tally.folded, tally.parted
    );
    println!("with the end of input: {}", tally.ends);
    println!(
        "accepted, with two names of one remainder modulo 65,536 {}, joined {}",
        tally.alike, tally.alike_joined
    );
    println!(
        "accepted, with a precedence {}, joined {}",
        tally.raised, tally.raised_joined
    );
    println!("by the textbook's reading: {textbook}");
    println!(
        "no difference on {} sheets in both readings: {original}",
        tally.sheets()
    );
}

fn main() -> ExitCode {
    run("pass", |options| {
        show(&compared(options)?);
        Ok(())
    })
}
