//! What is wrong with a text, or may be, and where.

use std::fmt;

/// What is wrong with a text, and where; lines and columns count from 1, columns in characters.
#[derive(Clone, Debug, Default, Eq, PartialEq)]
pub struct Fault {
    pub line: usize,
    pub column: usize,
    pub expected: String,
    pub found: String,
    /// What to write, where that can be said.
    pub advice: String,
}

impl fmt::Display for Fault {
    fn fmt(&self, out: &mut fmt::Formatter) -> fmt::Result {
        let Fault { line, column, .. } = self;
        write!(out, "line {line}, column {column}: expected ")?;
        write!(out, "{}, found {}", self.expected, self.found)?;
        match self.advice.is_empty() {
            true => Ok(()),
            false => write!(out, "; {}", self.advice),
        }
    }
}

impl std::error::Error for Fault {}

/// What is read, and may be meant otherwise.
#[derive(Clone, Debug, Eq, PartialEq)]
pub struct Warning {
    pub line: usize,
    pub column: usize,
    pub text: String,
}

impl fmt::Display for Warning {
    fn fmt(&self, out: &mut fmt::Formatter) -> fmt::Result {
        write!(out, "line {}: {}", self.line, self.text)
    }
}

/// The most characters of a line that are shown, and how many of them in front of the column.
const SHOWN_LINE: usize = 100;
const IN_FRONT: usize = 60;
/// The most of what was found that a message shows, in characters.
const SHOWN: usize = 40;

/// The line of a text that has a fault, and under it a mark at the column; each behind four spaces. Of a long line the
/// part around the column.
///
/// ```
/// let text = "e: a |\n  INT\na: e;";
/// let fault = notation::parse(text).unwrap_err();
/// assert_eq!(notation::shown(text, fault.line, fault.column), "    a: e;\n     ^");
/// ```
pub fn shown(text: &str, line: usize, column: usize) -> String {
    let text = text.strip_prefix('\u{feff}').unwrap_or(text);
    let text = lines_ended(text);
    let line = text.split('\n').nth(line.saturating_sub(1));
    let line = line.unwrap_or_default().trim_end_matches('\r');
    let from = match line.chars().count() > SHOWN_LINE {
        true => (column - 1).saturating_sub(IN_FRONT),
        false => 0,
    };
    let part = line.chars().skip(from).take(SHOWN_LINE);
    let part: String = part
        .map(|letter| if letter.is_control() { ' ' } else { letter })
        .collect();
    format!("    {part}\n    {:>1$}", '^', column - from)
}

/// A text in which lines end with line feeds: a carriage return alone is one too.
pub(crate) fn lines_ended(text: &str) -> std::borrow::Cow<'_, str> {
    if lone_return(text).is_none() {
        return text.into();
    }
    let mut out = String::with_capacity(text.len());
    let mut letters = text.chars().peekable();
    while let Some(letter) = letters.next() {
        let is_alone = letter == '\r' && letters.peek() != Some(&'\n');
        out.push(if is_alone { '\n' } else { letter });
    }
    out.into()
}

/// Where the first carriage return is that no line feed follows.
pub(crate) fn lone_return(text: &str) -> Option<usize> {
    let mut returns = text.match_indices('\r');
    let lone = returns.find(|(place, _)| !text[place + 1..].starts_with('\n'));
    lone.map(|(place, _)| place)
}

/// As a message shows it: one line, not too long, nothing that a terminal would act on.
pub(crate) fn quoted(text: &str) -> String {
    let mut shown = String::new();
    for (place, letter) in text.chars().enumerate() {
        match letter {
            _ if place == SHOWN => {
                shown.push_str("..");
                break;
            }
            _ if letter.is_control() => shown.extend(letter.escape_default()),
            _ => shown.push(letter),
        }
    }
    format!("`{shown}`")
}
