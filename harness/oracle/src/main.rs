//! `oracle listing|result|trail|origins|clauses|full < sheet`, and
//! `oracle notation < grammar` for a grammar in the notation of `sheets`.

use std::io::{Read, Write};
use std::process::ExitCode;

use oracle::{Answer, Done, ask, ask_sheet, text};
use sheets::codec::bytes_of;
use sheets::parse::parse;
use sheets::print::{Style, print};

fn main() -> ExitCode {
    let command = std::env::args().nth(1).unwrap_or_default();
    let mut input = Vec::new();
    if let Err(fault) = std::io::stdin().read_to_end(&mut input) {
        return fail(&fault.to_string());
    }
    let answer = match command.as_str() {
        "listing" => Ok(text::listing(&ask(&input)).into_bytes()),
        "full" => Ok(text::full(&ask(&input)).into_bytes()),
        "result" => of_done(ask(&input), |done| bytes_of(&done.words())),
        "trail" => of_done(ask(&input), |done| bytes_of(&text::trail(&done.trail))),
        "origins" => of_done(ask(&input), |done| text::origins(done).into_bytes()),
        "clauses" => of_done(ask(&input), |done| text::clauses(done).into_bytes()),
        "notation" => notation(&input),
        _ => Err("usage: oracle listing|result|trail|origins|clauses|full|notation".to_owned()),
    };
    match answer {
        Ok(out) => write(&out),
        Err(fault) => fail(&fault),
    }
}

fn of_done(answer: Answer, part: impl Fn(&Done) -> Vec<u8>) -> Result<Vec<u8>, String> {
    let done = answer.map_err(|refusal| format!("refused {refusal}"))?;
    Ok(part(&done))
}

/// The result in the notation, with the names of the grammar handed in.
fn notation(input: &[u8]) -> Result<Vec<u8>, String> {
    let grammar = std::str::from_utf8(input).map_err(|fault| fault.to_string())?;
    let (sheet, names) = parse(grammar)?;
    let done = match ask_sheet(&sheet) {
        Ok(done) => done,
        Err(refusal) => return Ok(format!("refused {refusal}\n").into_bytes()),
    };
    let head = format!("ok {} {}\n", done.plans(), done.steps());
    let rules = print(&done.result, &names, Style::Plain);
    Ok((head + &rules + &text::clauses(&done)).into_bytes())
}

fn write(out: &[u8]) -> ExitCode {
    match std::io::stdout().write_all(out) {
        Ok(()) => ExitCode::SUCCESS,
        Err(fault) => fail(&fault.to_string()),
    }
}

fn fail(fault: &str) -> ExitCode {
    eprintln!("oracle: {fault}");
    ExitCode::FAILURE
}
