//! The words and marks of the notation, each with its place.

use crate::MOST_NAME;
use crate::fault::{Fault, quoted};
use crate::names::is_token;

#[derive(Clone, Copy, Debug, Eq, PartialEq)]
pub(crate) enum What<'a> {
    Name(&'a str),
    /// A name without a text, as it is written, and its number: `r%7`. No name has a `%` in it.
    Numbered(&'a str, u32),
    /// With its `%`.
    Directive(&'a str),
    Number(u32),
    /// A single mark, or `::`.
    Mark(&'static str),
    /// What ANTLR's own texts have: a literal, what stands in brackets and is no number, a body that is code.
    Foreign(&'a str),
    End,
}

#[derive(Clone, Copy, Debug)]
pub(crate) struct Token<'a> {
    pub what: What<'a>,
    pub line: usize,
    pub column: usize,
    /// Whether it touches what stands in front of it, without white space or a comment between.
    pub is_close: bool,
}

impl Token<'_> {
    /// A capital letter in front makes a token, as in ANTLR.
    pub(crate) fn is_token(&self) -> bool {
        matches!(self.what, What::Name(text) | What::Numbered(text, _) if is_token(text))
    }

    pub(crate) fn is_name(&self) -> bool {
        matches!(self.what, What::Name(_) | What::Numbered(..))
    }

    pub(crate) fn is_mark(&self, mark: &str) -> bool {
        matches!(self.what, What::Mark(found) if found == mark)
    }

    pub(crate) fn fault(&self, expected: &str) -> Fault {
        self.advised(expected, "")
    }

    pub(crate) fn advised(&self, expected: &str, advice: &str) -> Fault {
        Fault {
            line: self.line,
            column: self.column,
            expected: expected.to_owned(),
            found: match self.what {
                What::Name(text)
                | What::Directive(text)
                | What::Numbered(text, _)
                | What::Foreign(text) => quoted(text),
                What::Number(number) => format!("`{number}`"),
                What::Mark(mark) => quoted(mark),
                What::End => "the end of the text".to_owned(),
            },
            advice: advice.to_owned(),
        }
    }
}

const MARKS: [&str; 26] = [
    "::", ":", ";", "|", "?", "*", "+", "(", ")", "[", "]", "<", ">", "{", "}", "&", "$", "@", "~",
    "^", "#", "!", "=", ",", ".", "-",
];
/// The most characters of a literal and of what stands in brackets.
const LONGEST_LITERAL: usize = 200;
/// The most bytes that are looked through for the ends of bodies, in all.
const MOST_LOOKED: usize = 4 << 20;
/// What a name of a number begins with (`Place::letter`).
const LETTERS: [&str; 4] = ["r", "T", "x", "o"];

/// All words and marks of a text, and at last its end; what is neither is passed over, with a fault.
pub(crate) fn scan(text: &str) -> (Vec<Token<'_>>, Vec<Fault>) {
    let mut cursor = Cursor {
        rest: text.strip_prefix('\u{feff}').unwrap_or(text),
        line: 1,
        column: 1,
        looked: 0,
    };
    let (mut tokens, mut faults) = (Vec::new(), Vec::new());
    loop {
        let is_close = !cursor.skip_gaps();
        match cursor.token(is_close) {
            Ok(token) => tokens.push(token),
            Err(fault) => faults.push(fault),
        }
        if tokens.last().is_some_and(|token| token.what == What::End) {
            return (tokens, faults);
        }
    }
}

/// The line and column behind a text's last character.
pub fn end_of(text: &str) -> (usize, usize) {
    let last = text.rsplit('\n').next().unwrap_or_default();
    let line = 1 + text.matches('\n').count();
    (line, 1 + last.chars().count())
}

/// What was expected, what was found, and what to write.
type Wrong<'a> = (&'static str, &'a str, &'static str);

struct Cursor<'a> {
    rest: &'a str,
    line: usize,
    column: usize,
    /// How many bytes were looked through for the ends of bodies.
    looked: usize,
}

impl<'a> Cursor<'a> {
    /// White space, and comments from `//` to the end of the line; whether there was any.
    fn skip_gaps(&mut self) -> bool {
        let before = self.rest.len();
        loop {
            let gap = match self.rest.strip_prefix("//") {
                Some(_) => self.rest.find('\n').unwrap_or(self.rest.len()),
                None => self.rest.len() - self.rest.trim_start().len(),
            };
            if gap == 0 {
                return self.rest.len() < before;
            }
            self.take(gap);
        }
    }

    /// The next so many bytes.
    fn take(&mut self, bytes: usize) -> &'a str {
        let (taken, rest) = self.rest.split_at(bytes);
        self.rest = rest;
        let (line, column) = end_of(taken);
        self.column = if line == 1 {
            self.column + column - 1
        } else {
            column
        };
        self.line += line - 1;
        taken
    }

    fn token(&mut self, is_close: bool) -> Result<Token<'a>, Fault> {
        let (line, column) = (self.line, self.column);
        let what = self.what().map_err(|(expected, found, advice)| Fault {
            line,
            column,
            expected: expected.to_owned(),
            found: quoted(found),
            advice: advice.to_owned(),
        })?;
        Ok(Token {
            what,
            line,
            column,
            is_close,
        })
    }

    fn what(&mut self) -> Result<What<'a>, Wrong<'a>> {
        let Some(first) = self.rest.chars().next() else {
            return Ok(What::End);
        };
        if first.is_ascii_digit() {
            let digits = self.take(self.length(0, |next| next.is_ascii_digit()));
            let number = digits.parse().map(What::Number);
            return number.map_err(|_| ("a number up to 4294967295", digits, ""));
        }
        if first.is_ascii_alphabetic() || first == '_' {
            return self.name();
        }
        if first == '%' {
            return Ok(What::Directive(self.take(1 + self.length(1, is_inner))));
        }
        if self.rest.starts_with("/*") {
            let end = self.rest.find("*/").map_or(self.rest.len(), |end| end + 2);
            let advice = "write `//` in front of each line of a comment";
            self.take(end);
            return Err(("a comment behind `//`", "/*", advice));
        }
        if let Some(length) = self.foreign(first) {
            return Ok(What::Foreign(self.take(length)));
        }
        match MARKS.iter().find(|mark| self.rest.starts_with(**mark)) {
            Some(mark) => {
                self.take(mark.len());
                Ok(What::Mark(mark))
            }
            None => {
                let found = self.take(first.len_utf8());
                Err(("a name, a number or a mark of the notation", found, ""))
            }
        }
    }

    /// A name with a text, or one of a number: `r%7`, `T%7`, `x%7` and `o%7`.
    fn name(&mut self) -> Result<What<'a>, Wrong<'a>> {
        let letters = self.length(0, is_inner);
        let is_numbered = LETTERS.contains(&&self.rest[..letters]);
        let digits = match self.rest[letters..].starts_with('%') && is_numbered {
            true => self.length(letters + 1, |next| next.is_ascii_digit()),
            false => 0,
        };
        if digits == 0 {
            return Ok(What::Name(self.take(letters)));
        }
        let written = self.take(letters + 1 + digits);
        let number = written[letters + 1..].parse().ok();
        let number = number.filter(|number| (1..=MOST_NAME).contains(number));
        let wrong = ("a number of a name, from 1 to 4294967295", written, "");
        number
            .map(|number| What::Numbered(written, number))
            .ok_or(wrong)
    }

    /// How many bytes a thing of ANTLR's own texts has that stands here.
    fn foreign(&mut self, first: char) -> Option<usize> {
        match first {
            '\'' | '"' => self.literal(first),
            '[' => self.bracket(),
            '{' => self.code(),
            _ => None,
        }
    }

    /// Up to the quote that ends it, on the same line; what stands behind a backslash ends nothing.
    fn literal(&self, quote: char) -> Option<usize> {
        let mut letters = self.rest.char_indices().skip(1).take(LONGEST_LITERAL);
        while let Some((place, letter)) = letters.next() {
            match letter {
                '\n' => return None,
                '\\' => drop(letters.next()),
                _ if letter == quote => return Some(place + letter.len_utf8()),
                _ => {}
            }
        }
        None
    }

    /// A set or a declaration in brackets; a number in them is the notation's own.
    fn bracket(&self) -> Option<usize> {
        let end = self.literal(']')?;
        let inner = self.rest[1..end - 1].trim();
        let is_number = !inner.is_empty() && inner.bytes().all(|byte| byte.is_ascii_digit());
        (!is_number).then_some(end)
    }

    /// A body that has more in it than references.
    fn code(&mut self) -> Option<usize> {
        if self.looked > MOST_LOOKED {
            return None;
        }
        let mut depth = 0;
        let ends = |letter: char| {
            match letter {
                '{' => depth += 1,
                '}' => depth -= 1,
                _ => {}
            }
            depth == 0
        };
        let end = self.rest.find(ends).map(|place| place + 1);
        self.looked += end.unwrap_or(self.rest.len());
        let body = &self.rest[1..end? - 1];
        let own =
            |letter: char| is_inner(letter) || letter.is_whitespace() || "$.:@%?".contains(letter);
        (!body.chars().all(own)).then_some(end?)
    }

    /// How many bytes of such characters stand behind the first ones.
    fn length(&self, front: usize, inner: impl Fn(char) -> bool) -> usize {
        let behind = &self.rest[front..];
        behind.find(|next| !inner(next)).unwrap_or(behind.len())
    }
}

fn is_inner(letter: char) -> bool {
    letter.is_ascii_alphanumeric() || letter == '_'
}
