//! `join`: a grammar's left-recursive cycles joined by the proved pass, printed with where each alternative came from.
#![forbid(unsafe_code)]

mod answer;
mod convert;
mod ends;
mod files;
mod input;
mod levels;
mod listing;
mod options;
mod origins;
mod refused;
mod report;
mod stop;
mod why;

use std::io::Write as _;
use std::process::ExitCode;

use mutual_recursion::{ARCHIVES, Provenance, Refusal, join};

use crate::answer::Answer;
use crate::files::Files;
use crate::input::Input;
use crate::options::{Asked, Options};
use crate::stop::{Status, Stop};

/// ./join prints it too, before anything is built.
const HELP: &str = include_str!("../help.txt");
const VERSION: &str = env!("CARGO_PKG_VERSION");

fn main() -> ExitCode {
    let done = match options::asked(std::env::args_os().skip(1)) {
        Ok(Asked::Help) => printed(HELP),
        Ok(Asked::Version) => printed(&version()),
        Ok(Asked::Join(options)) => run(&options),
        Ok(Asked::Convert(asked)) => convert::run(&asked),
        Err(stop) => Err(stop),
    };
    match done {
        Ok(()) => ExitCode::SUCCESS,
        Err(stop) => {
            // Where standard error is closed too, the status alone tells.
            let _ = writeln!(std::io::stderr(), "join: {}", stop.text);
            ExitCode::from(stop.status as u8)
        }
    }
}

/// With what is known of the archives that were linked.
fn version() -> String {
    let Provenance { kit, sources, .. } = ARCHIVES;
    format!("join {VERSION}\nkit {kit}\nsources {sources}\n")
}

fn run(options: &Options) -> Result<(), Stop> {
    let input = input::read(options)?;
    files::apart(options, !input.is_text)?;
    if options.check {
        return Ok(());
    }
    let joined = match join(&input.bytes, options.reading) {
        Ok(joined) => joined,
        Err(refusal) => return Err(refused(refusal, &input, options)?),
    };
    let answer = Answer::of(input, joined, options);
    let files = staged(options, &answer)?;
    match options.listing {
        true => printed(&listing::listing(&answer.joined))?,
        false => printed(&report::report(&answer))?,
    }
    files.put()?;
    match options.strict {
        true => answer.none_left(),
        false => Ok(()),
    }
}

/// What is said of a sheet that is refused; in the listing its line is the answer.
fn refused(refusal: Refusal, input: &Input, options: &Options) -> Result<Stop, Stop> {
    if options.listing {
        printed(&listing::refused(refusal))?;
    }
    Ok(Stop {
        status: Status::Refused,
        text: refused::told(refusal, input, options.reading),
    })
}

/// The files that are asked for; they are put in their places once the answer is printed.
fn staged(options: &Options, answer: &Answer) -> Result<Files, Stop> {
    let mut files = Files::default();
    if let Some(path) = &options.sheet {
        files.stage(path, answer.joined.sheet.clone())?;
    }
    if let Some(path) = &options.trail {
        files.stage(path, answer.joined.trail_bytes())?;
    }
    if let (Some(path), true) = (&options.names, answer.is_text) {
        files.stage(path, answer.table.clone().unwrap_or_default())?;
    }
    Ok(files)
}

fn printed(text: &str) -> Result<(), Stop> {
    if streams::is_output_closed() {
        return Err(Stop::output(&"it is closed"));
    }
    let mut out = std::io::stdout().lock();
    let done = out.write_all(text.as_bytes()).and_then(|()| out.flush());
    done.map_err(|fault| Stop::output(&fault))
}
