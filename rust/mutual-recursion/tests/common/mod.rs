//! Sheets for the tests: those stored with the original's answers, and some made word by word.
#![allow(dead_code)] // each test has its own use for it

use std::collections::HashMap;
use std::fs;
use std::path::PathBuf;

use mutual_recursion::{Reading, Refusal, join};

/// A stored sheet and the original's answer.
pub struct Stored {
    pub name: String,
    pub grammar: String,
    pub sheet: Vec<u8>,
    pub answer: Result<Answer, u32>,
}

#[derive(Default)]
pub struct Answer {
    pub plans: u32,
    pub steps: u32,
    pub result: Vec<u8>,
    /// Kind, id, reason, owner.
    pub trail: Vec<Vec<u32>>,
    /// Of each cycle left the clause, then its members.
    pub cycles: Vec<Vec<u32>>,
}

pub fn root() -> PathBuf {
    PathBuf::from(env!("CARGO_MANIFEST_DIR")).join("../..")
}

/// All stored sheets (harness/answers/README.md says how they are written).
pub fn stored() -> Vec<Stored> {
    let folder = root().join("harness/answers");
    let mut files: Vec<PathBuf> = fs::read_dir(folder)
        .expect("stored answers")
        .map(|entry| entry.expect("an entry").path())
        .filter(|path| path.extension().is_some_and(|end| end == "txt"))
        .collect();
    files.sort();
    let texts = files
        .iter()
        .map(|path| fs::read_to_string(path).expect("a text"));
    let all: Vec<Stored> = texts.flat_map(|text| records(&text)).collect();
    assert!(all.len() > 900, "{} stored sheets", all.len());
    all
}

fn records(text: &str) -> Vec<Stored> {
    let parts = text.split("\n\n").filter(|part| !part.trim().is_empty());
    parts.map(record).collect()
}

fn record(text: &str) -> Stored {
    let mut record = Stored {
        name: String::new(),
        grammar: String::new(),
        sheet: Vec::new(),
        answer: Ok(Answer::default()),
    };
    for line in text.lines() {
        let (head, rest) = line.split_once(' ').unwrap_or((line, ""));
        match (head, &mut record.answer) {
            ("sheet", _) => record.name = rest.to_owned(),
            ("grammar", _) => record.grammar = rest.to_owned(),
            ("in", _) => record.sheet = bytes(&numbers(rest)),
            ("hex", _) => record.sheet = of_hex(rest),
            ("refused", _) => record.answer = Err(rest.parse().expect("a number")),
            ("ok", Ok(answer)) => {
                [answer.plans, answer.steps] = numbers(rest)[..].try_into().unwrap()
            }
            ("out", Ok(answer)) if rest == "same" => answer.result = record.sheet.clone(),
            ("out", Ok(answer)) => answer.result = bytes(&numbers(rest)),
            ("t", Ok(answer)) => answer.trail.push(numbers(rest)),
            ("c", Ok(answer)) => answer.cycles.push(numbers(rest)),
            _ => {}
        }
    }
    record
}

fn numbers(text: &str) -> Vec<u32> {
    text.split_whitespace()
        .map(|word| word.parse().expect("a word"))
        .collect()
}

fn of_hex(text: &str) -> Vec<u8> {
    let digits: Vec<u8> = text
        .bytes()
        .filter(|byte| byte.is_ascii_hexdigit())
        .collect();
    let pair = |two: &[u8]| u8::from_str_radix(str::from_utf8(two).unwrap(), 16).unwrap();
    digits.chunks(2).map(pair).collect()
}

pub fn bytes(words: &[u32]) -> Vec<u8> {
    words.iter().flat_map(|word| word.to_le_bytes()).collect()
}

/// The unit kind of a sheet that is not refused.
pub fn kind(sheet: &[u8]) -> u8 {
    sheet[sheet.len() - 32]
}

/// The stored sheets by name.
pub fn by_name() -> HashMap<String, Stored> {
    stored()
        .into_iter()
        .map(|record| (record.name.clone(), record))
        .collect()
}

// ---- texts, and the specification

/// What is left of a text without its parts: the words between them.
fn between(text: &str, parts: &[&str]) -> String {
    parts.iter().fold(text.to_owned(), |rest, part| {
        assert!(rest.contains(part), "'{part}' is not in '{rest}'");
        rest.replacen(part, "", 1)
    })
}

/// Checks that the parts are the whole text, but for words that join them.
pub fn covers(text: &str, parts: &[&str]) {
    let rest = between(text, parts);
    let left: Vec<&str> = rest
        .split([' ', ',', ':', ';'])
        .filter(|word| !word.is_empty())
        .collect();
    let joining = ["or", "a", "has", "it"];
    assert!(
        left.iter().all(|word| joining.contains(word)),
        "'{rest}' of '{text}' is not tested"
    );
}

/// The paragraphs of a section of the specification, by their number.
pub fn paragraphs(section: u32) -> HashMap<u32, String> {
    let text = fs::read_to_string(root().join("docs/SPECIFICATION.md")).expect("the specification");
    let start = format!("**{section}.");
    let own = text
        .split("\n\n")
        .filter_map(|part| part.strip_prefix(&start));
    own.map(|part| {
        let (number, rest) = part.split_once("** ").expect("a numbered paragraph");
        (number.parse().expect("a number"), rest.replace('\n', " "))
    })
    .collect()
}

/// The refusal, or 0.
pub fn number(sheet: &[u8]) -> u32 {
    join(sheet, Reading::Original)
        .err()
        .map_or(0, Refusal::number)
}

/// Refused by the number that is tested, and a neighbour that is not.
pub type Sides = (Vec<u8>, Vec<u8>);

pub fn check(refusal: Refusal, parts: &[(&str, Vec<Sides>)]) {
    let words: Vec<&str> = parts.iter().map(|(part, _)| *part).collect();
    covers(&refusal.to_string(), &words);
    for (part, sides) in parts {
        for (refused, fine) in sides {
            assert_eq!(number(refused), refusal.number(), "{part}");
            assert_eq!(number(fine), 0, "{part}");
        }
    }
}

// ---- sheets word by word

pub const FAR: [u32; 5] = [1000; 5];

/// A parser unit whose distances fit.
pub fn sheet(rules: &[Vec<u32>], preserved: &[u32], counters: [u32; 5]) -> Vec<u8> {
    let mut words = [rules.concat(), preserved.to_vec()].concat();
    let before = words.len() as u32;
    words.extend([2, before, preserved.len() as u32]);
    words.extend(counters);
    bytes(&words)
}

pub fn rule(id: u32, name: u32, alternatives: &[Vec<u32>]) -> Vec<u32> {
    let head = vec![id, name, 0, alternatives.len() as u32];
    [head, alternatives.concat()].concat()
}

pub fn alternative(id: u32, elements: &[Vec<u32>]) -> Vec<u32> {
    let head = vec![id, 0, 0, 0, elements.len() as u32];
    [head, elements.concat()].concat()
}

/// With its kind and quantifier in one word, the label's id and name, and the payload.
pub fn element(id: u32, packed: u32, label: [u32; 2], payload: &[u32]) -> Vec<u32> {
    let head = vec![id, 0, packed, label[0], label[1], 0];
    [head, payload.to_vec()].concat()
}

/// One rule of one alternative with these elements, all counters far away.
pub fn with(elements: &[Vec<u32>]) -> Vec<u8> {
    sheet(&[rule(1, 1, &[alternative(0, elements)])], &[], FAR)
}

/// Blocks in each other, so many deep.
pub fn nested(depth: u32) -> Vec<u32> {
    match depth {
        0 => element(0, 5, [0, 0], &[]),
        _ => {
            let inner = alternative(depth, &[nested(depth - 1)]);
            element(depth, 6, [0, 0], &[vec![1], inner].concat())
        }
    }
}

/// A token.
pub fn token(id: u32) -> Vec<u32> {
    element(id, 4, [0, 0], &[1])
}
