//! `answers write DIR` makes the stored answers anew; `answers check DIR`
//! compares what is stored with what would be made; `answers counts DIR` counts.

use std::fs;
use std::path::Path;
use std::process::ExitCode;

use oracle::book::{Counts, FILES, count};

fn main() -> ExitCode {
    let arguments: Vec<String> = std::env::args().skip(1).collect();
    let [command, folder] = &arguments[..] else {
        return fail("usage: answers write|check|counts DIR");
    };
    let folder = Path::new(folder);
    let outcome = match command.as_str() {
        "write" => write(folder),
        "check" => check(folder),
        "counts" => counts(folder),
        _ => Err("usage: answers write|check|counts DIR".to_owned()),
    };
    match outcome {
        Ok(()) => ExitCode::SUCCESS,
        Err(fault) => fail(&fault),
    }
}

fn write(folder: &Path) -> Result<(), String> {
    for file in &FILES {
        let path = folder.join(file.name);
        let folder = path.parent().unwrap_or(folder);
        fs::create_dir_all(folder)
            .and_then(|()| fs::write(&path, file.text()))
            .map_err(|fault| format!("{}: {fault}", path.display()))?;
    }
    Ok(())
}

fn read(folder: &Path, name: &str) -> Result<String, String> {
    let path = folder.join(name);
    fs::read_to_string(&path).map_err(|fault| format!("{}: {fault}", path.display()))
}

fn check(folder: &Path) -> Result<(), String> {
    for file in &FILES {
        if read(folder, file.name)? != file.text() {
            return Err(format!("{} is not what would be made", file.name));
        }
        println!("{} as made", file.name);
    }
    Ok(())
}

fn counts(folder: &Path) -> Result<(), String> {
    let mut counts = Counts::default();
    for file in &FILES {
        count(&read(folder, file.name)?, &mut counts);
    }
    println!("{counts:?}");
    Ok(())
}

fn fail(fault: &str) -> ExitCode {
    eprintln!("answers: {fault}");
    ExitCode::FAILURE
}
