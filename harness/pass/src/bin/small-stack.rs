//! `small-stack`: the proved pass on all stored sheets and on those built to be deep and large, with 64 KB of stack.
//! Where that is not enough, the page behind it ends the program, which names the sheet.

use std::process::ExitCode;
use std::thread::Builder;

use analysis::stored::stored;
use pass::built::hardest;
use pass::compare::{LEAST, left};
use pass::outcome::{Outcome, judged};
use pass::proved::PROVED;
use sheets::codec::{bytes_of, encode};

const STACK: usize = 65_536;

/// Asks both entries on a thread of its own, which has nothing else to do; buffers and answers are made outside.
fn asked(name: &str, sheet: &[u8]) -> Result<[u32; 2], String> {
    let judged = judged(sheet);
    for (entry, expected) in PROVED.iter().zip(&judged.readings) {
        let before = LEAST.map(|length| vec![0xa5; length]);
        let mut buffers = before.clone();
        let mut numbers = [0xdead_beef; 5];
        std::thread::scope(|scope| {
            let lent = buffers.each_mut().map(|own| &mut own[..]);
            let run = || entry(sheet, lent, &mut numbers);
            // Where the stack is not enough, the thread's name is told.
            let thread = Builder::new().name(name.to_owned()).stack_size(STACK);
            let thread = thread.spawn_scoped(scope, run);
            thread.expect("a thread").join().expect("it does not panic");
        });
        if numbers != expected.numbers {
            return Err(format!(
                "{name}: numbers are {numbers:?}, and should be {:?}",
                expected.numbers
            ));
        }
        left(
            expected,
            buffers.each_ref().map(|own| &own[..]),
            before.each_ref().map(|own| &own[..]),
        )
        .map_err(|what| format!("{name}: {what}"))?;
    }
    Ok(judged.readings.each_ref().map(Outcome::number))
}

fn all() -> Result<String, String> {
    let stored = stored()?;
    for sheet in &stored {
        asked(&sheet.name, &sheet.bytes)?;
    }
    println!("stored sheets {}", stored.len());
    let built = hardest();
    for (name, tree) in &built {
        let bytes = bytes_of(&encode(tree));
        let [number, _] = asked(name, &bytes)?;
        println!("{name}, {} bytes: {number}", bytes.len());
    }
    Ok(format!(
        "{STACK} bytes of stack are enough: {} sheets with both entries",
        stored.len() + built.len()
    ))
}

fn main() -> ExitCode {
    match all() {
        Ok(told) => {
            println!("{told}");
            ExitCode::SUCCESS
        }
        Err(what) => {
            eprintln!("small-stack: {what}");
            ExitCode::FAILURE
        }
    }
}
