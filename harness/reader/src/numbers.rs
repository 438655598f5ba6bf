//! A reader's answer as 396 words: the form in which the proved reader hands it over.

use crate::read::Parts;

pub const NUMBERS: usize = 396;
/// The words in front of the rows, and the words of a row: ids, names, places.
pub const FRONT: usize = 12;
pub const ROW: usize = 128;
const PRESERVED: usize = 3;
const RULES: usize = 9;
const ALTERNATIVES: usize = 10;
const ELEMENTS: usize = 11;
const IDS: usize = FRONT;
const NAMES: usize = IDS + ROW;
const PLACES: usize = NAMES + ROW;

/// Word 0 is the refusal, or 0 with the sheet's parts behind it; all that is not said is 0.
pub fn numbers(answer: &Result<Parts, u32>) -> [u32; NUMBERS] {
    let mut out = [0; NUMBERS];
    match answer {
        Err(refusal) => out[0] = *refusal,
        Ok(parts) => fill(&mut out, parts),
    }
    out
}

fn fill(out: &mut [u32; NUMBERS], parts: &Parts) {
    out[1] = parts.kind;
    out[2] = parts.preserved_at;
    out[PRESERVED] = parts.preserved;
    out[4..9].copy_from_slice(&parts.counters);
    out[RULES] = parts.rules.len() as u32;
    for (i, rule) in parts.rules.iter().enumerate() {
        out[IDS + i] = rule.id;
        out[NAMES + i] = rule.name;
        out[PLACES + i] = rule.place;
    }
    out[ALTERNATIVES] = parts.alternatives;
    out[ELEMENTS] = parts.elements;
}

/// An answer as a line: its refusal, or how many rules, alternatives, elements and preserved ids the sheet has.
pub fn line(answer: &Result<Parts, u32>) -> String {
    line_of(&numbers(answer))
}

/// The same of the answer's words.
pub fn line_of(words: &[u32; NUMBERS]) -> String {
    if words[0] != 0 {
        return format!("refused {}", words[0]);
    }
    format!(
        "sheet {} {} {} {}",
        words[RULES], words[ALTERNATIVES], words[ELEMENTS], words[PRESERVED]
    )
}
