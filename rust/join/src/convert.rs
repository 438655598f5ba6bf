//! `--convert`: an old sheet made a sheet of today.

use mutual_recursion::{Reading, Refusal, convert, cycles};

use crate::files::{self, Files};
use crate::input;
use crate::options::Conversion;
use crate::printed;
use crate::stop::{Status, Stop};

pub fn run(asked: &Conversion) -> Result<(), Stop> {
    let old = input::read_file(&asked.old)?;
    files::converted_apart(asked)?;
    if asked.check {
        return Ok(());
    }
    let new = convert(&old).map_err(|refusal| refused(refusal, &old))?;
    let told = format!("{} bytes\n", new.len());
    let mut files = Files::default();
    files.stage(&asked.new, new)?;
    printed(&told)?;
    files.put()
}

fn refused(refusal: Refusal, old: &[u8]) -> Stop {
    let number = refusal.number();
    let more = match refusal {
        Refusal::BadLength => format!("; it has {} bytes", old.len()),
        Refusal::BadRecord if cycles(old, Reading::Original).is_ok() => {
            "; it can be read as a sheet of today, so it may be converted already".to_owned()
        }
        _ => String::new(),
    };
    Stop {
        status: Status::Refused,
        text: format!("the old sheet is refused by {number}: {refusal}{more}"),
    }
}
