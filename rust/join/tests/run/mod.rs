//! Runs the program, in folders of its own.
#![allow(dead_code)] // each test file has its own copy, and needs a part of it

use std::fs;
use std::path::PathBuf;
use std::process::{Command, Output, Stdio};

pub struct Run {
    pub status: i32,
    pub out: String,
    pub said: String,
}

pub fn join(words: &[&str]) -> Run {
    Run::of(command(words).output().expect("the program runs"))
}

/// With its standard output into a file.
pub fn join_into(path: &str, words: &[&str]) -> Run {
    let file = fs::OpenOptions::new().write(true).open(path);
    let file = Stdio::from(file.expect("the file is there"));
    let child = command(words).stdout(file).stderr(Stdio::piped()).spawn();
    Run::of(
        child
            .expect("the program runs")
            .wait_with_output()
            .expect("it ends"),
    )
}

fn command(words: &[&str]) -> Command {
    let mut command = Command::new(env!("CARGO_BIN_EXE_join"));
    command.args(words);
    command
}

impl Run {
    fn of(output: Output) -> Run {
        let text = |bytes| String::from_utf8(bytes).expect("it prints UTF-8");
        Run {
            status: output.status.code().expect("it ends by itself"),
            out: text(output.stdout),
            said: text(output.stderr),
        }
    }

    /// What is printed, where nothing goes wrong.
    pub fn answer(self) -> String {
        assert_eq!((self.status, &self.said[..]), (0, ""));
        self.out
    }

    /// That nothing is printed, and the message begins so.
    pub fn stopped(&self, status: i32, message: &str) {
        assert_eq!((self.status, &self.out[..]), (status, ""), "{}", self.said);
        let message = format!("join: {message}");
        assert!(
            self.said.starts_with(&message),
            "{} is not {message}",
            self.said
        );
    }
}

/// A folder for one test.
pub struct Folder(PathBuf);

impl Folder {
    pub fn new(name: &str) -> Folder {
        let path = PathBuf::from(env!("CARGO_TARGET_TMPDIR")).join(format!("join-{name}"));
        let _ = fs::remove_dir_all(&path);
        fs::create_dir_all(&path).expect("a folder");
        Folder(path)
    }

    pub fn path(&self, name: &str) -> String {
        self.0.join(name).to_str().expect("UTF-8").to_owned()
    }

    pub fn write(&self, name: &str, bytes: &[u8]) -> String {
        fs::write(self.0.join(name), bytes).expect("a file");
        self.path(name)
    }

    pub fn read(&self, name: &str) -> Vec<u8> {
        fs::read(self.0.join(name)).expect("a file")
    }

    pub fn has(&self, name: &str) -> bool {
        self.0.join(name).exists()
    }
}
