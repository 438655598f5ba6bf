//! Why the program ends without its answer, or with a status of its own.

use std::fmt::Display;
use std::path::Path;

/// The exit status; 0 is for an answer, and 4 for `./join`, where the program cannot be built.
#[derive(Clone, Copy, Debug, Eq, PartialEq)]
pub enum Status {
    Refused = 1,
    /// A text in the notation is wrong, or a table of names is another sheet's.
    Text = 2,
    /// A file cannot be read or written, or the program is used wrongly.
    File = 3,
    /// All is answered, and with `--strict` a cycle is left.
    Left = 5,
}

#[derive(Clone, Debug, Eq, PartialEq)]
pub struct Stop {
    pub status: Status,
    pub text: String,
}

impl Stop {
    pub fn file(what: &str, path: &Path, fault: &impl Display) -> Stop {
        Stop {
            status: Status::File,
            text: format!("cannot {what} {}: {fault}", path.display()),
        }
    }

    /// The faults of a text, each with its line and a mark under its column.
    pub fn text(path: &Path, text: &[u8], faults: &[notation::Fault]) -> Stop {
        let text = String::from_utf8_lossy(text);
        let told = |fault: &notation::Fault| {
            let line = notation::shown(&text, fault.line, fault.column);
            format!("{}: {fault}\n{line}\n", path.display())
        };
        let mut out: String = faults.iter().map(told).collect();
        if faults.len() == notation::MOST_FAULTS {
            out += &format!(
                "{} faults are told at once; there may be more\n",
                faults.len()
            );
        }
        Stop {
            status: Status::Text,
            text: out
                + "docs/NOTATION.md has the whole notation, and what ANTLR's own texts become in it",
        }
    }

    pub fn output(fault: &impl Display) -> Stop {
        Stop {
            status: Status::File,
            text: format!("cannot write to standard output: {fault}"),
        }
    }
}
