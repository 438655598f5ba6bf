//! `sheets make` reads the notation and writes a sheet; `sheets show` and
//! `sheets plain` print a sheet in the notation; `sheets words` and
//! `sheets bytes` turn a sheet into decimal words and back;
//! `sheets generate PROFILE SEED` writes a sheet from a seed, and
//! `sheets profiles` names the profiles.

use std::io::{Read, Write};
use std::process::ExitCode;

use sheets::codec::{bytes_of, encode, read, words_of};
use sheets::generate;
use sheets::names::Names;
use sheets::parse::parse;
use sheets::print::{Style, print};

fn main() -> ExitCode {
    let arguments: Vec<String> = std::env::args().skip(1).collect();
    if let Some(answer) = without_input(&arguments) {
        return finish(answer);
    }
    let mut input = Vec::new();
    if let Err(fault) = std::io::stdin().read_to_end(&mut input) {
        return fail(&fault.to_string());
    }
    let answer = match arguments.first().map(String::as_str) {
        Some("make") => make(&input),
        Some("show") => show(&input, Style::Full),
        Some("plain") => show(&input, Style::Plain),
        Some("words") => Ok(words(&input)),
        Some("bytes") => from_words(&input),
        _ => Err("usage: sheets make|show|plain|words|bytes < input".to_owned()),
    };
    finish(answer)
}

fn without_input(arguments: &[String]) -> Option<Result<Vec<u8>, String>> {
    match arguments {
        [command] if command == "profiles" => Some(Ok(profiles())),
        [command, name, seed] if command == "generate" => Some(generated(name, seed)),
        _ => None,
    }
}

fn profiles() -> Vec<u8> {
    let lines = generate::names().map(|name| format!("{name}\n"));
    lines.collect::<String>().into_bytes()
}

fn generated(name: &str, seed: &str) -> Result<Vec<u8>, String> {
    let seed = seed.parse().map_err(|_| format!("no seed: {seed}"))?;
    generate::bytes(name, seed).ok_or_else(|| format!("no profile {name}"))
}

fn finish(answer: Result<Vec<u8>, String>) -> ExitCode {
    match answer {
        Ok(out) => write(&out),
        Err(fault) => fail(&fault),
    }
}

fn make(input: &[u8]) -> Result<Vec<u8>, String> {
    let text = std::str::from_utf8(input).map_err(|fault| fault.to_string())?;
    let (sheet, _) = parse(text)?;
    Ok(bytes_of(&encode(&sheet)))
}

fn show(input: &[u8], style: Style) -> Result<Vec<u8>, String> {
    let sheet = read(input).map_err(|refusal| format!("refused {refusal}"))?;
    Ok(print(&sheet, &Names::default(), style).into_bytes())
}

fn words(input: &[u8]) -> Vec<u8> {
    let words = words_of(input)
        .iter()
        .map(u32::to_string)
        .collect::<Vec<_>>();
    (words.join(" ") + "\n").into_bytes()
}

fn from_words(input: &[u8]) -> Result<Vec<u8>, String> {
    let text = std::str::from_utf8(input).map_err(|fault| fault.to_string())?;
    let words = text
        .split_whitespace()
        .map(str::parse)
        .collect::<Result<Vec<u32>, _>>();
    words
        .map(|words| bytes_of(&words))
        .map_err(|fault| fault.to_string())
}

fn write(out: &[u8]) -> ExitCode {
    match std::io::stdout().write_all(out) {
        Ok(()) => ExitCode::SUCCESS,
        Err(fault) => fail(&fault.to_string()),
    }
}

fn fail(fault: &str) -> ExitCode {
    eprintln!("sheets: {fault}");
    ExitCode::FAILURE
}
