//! The notation's lexical layer.

#[derive(Clone, Debug, Eq, PartialEq)]
pub enum Token {
    Name(String),
    Number(u32),
    /// A single mark, or `::`.
    Mark(&'static str),
    /// The `^` of a precedence, which touches the call in front of it; behind a gap it is that of the next element's id.
    Raised,
}

const MARKS: [&str; 26] = [
    "::", ":", ";", "|", "?", "*", "+", "(", ")", "[", "]", "<", ">", "{", "}", "&", "$", "@", "~",
    "^", "#", "!", "=", ",", ".", "-",
];

pub fn scan(text: &str) -> Result<Vec<Token>, String> {
    let mut tokens = Vec::new();
    let mut rest = text.trim_start();
    while !rest.is_empty() {
        let (token, mut after) = first_token(rest)?;
        let ends_call = matches!(token, Token::Name(_) | Token::Mark("]" | "?" | "*" | "+"));
        tokens.push(token);
        if let Some(behind) = after.strip_prefix('^').filter(|_| ends_call) {
            tokens.push(Token::Raised);
            after = behind;
        }
        rest = after.trim_start();
    }
    Ok(tokens)
}

fn first_token(rest: &str) -> Result<(Token, &str), String> {
    if rest.starts_with(|first: char| first.is_ascii_digit()) {
        let (digits, after) = split_while(rest, |next| next.is_ascii_digit());
        let number = digits
            .parse()
            .map_err(|_| format!("number out of range: {digits}"))?;
        return Ok((Token::Number(number), after));
    }
    if rest.starts_with(|first: char| first.is_ascii_alphabetic() || first == '_' || first == '%') {
        let (name, after) = name_at(rest);
        return Ok((Token::Name(name.to_owned()), after));
    }
    let mark = MARKS.iter().find(|mark| rest.starts_with(**mark));
    let mark = mark.ok_or_else(|| format!("unknown mark at: {}", excerpt(rest)))?;
    Ok((Token::Mark(mark), &rest[mark.len()..]))
}

/// Directives keep their `%`.
fn name_at(rest: &str) -> (&str, &str) {
    let inner = |next: char| next.is_ascii_alphanumeric() || next == '_';
    let end = rest[1..]
        .find(|next| !inner(next))
        .map_or(rest.len(), |end| end + 1);
    rest.split_at(end)
}

fn split_while(rest: &str, inner: impl Fn(char) -> bool) -> (&str, &str) {
    let end = rest.find(|next| !inner(next)).unwrap_or(rest.len());
    rest.split_at(end)
}

fn excerpt(rest: &str) -> String {
    rest.chars().take(20).collect()
}
