//! What is printed of a grammar that was joined: comments about it, and the grammar itself.

mod head;

use std::fmt::Write as _;

use notation::{Alternative, Printer, Rule, Style};

use crate::answer::Answer;
use crate::levels::{self, Remark};

/// Comments behind alternatives begin in one column, except behind longer ones.
const WIDEST: usize = 60;

/// The answer as a text of the notation, the same for the same file, options and archives.
pub fn report(answer: &Answer) -> String {
    let remarks = answer.remarks();
    format!(
        "{}\n{}",
        head::head(answer, &remarks),
        grammar(answer, &remarks)
    )
}

/// The rules in their order; joined ones, and what stands between them, parted by empty lines.
fn grammar(answer: &Answer, remarks: &[Remark]) -> String {
    let mut printer = Printer::of(&answer.after, Style::Plain);
    let mut parts = vec![printer.directives(), String::new()];
    for rule in &answer.after.sheet.rules {
        match answer.hubs.contains(&rule.id) {
            true => parts.extend([hub(answer, remarks, &mut printer, rule), String::new()]),
            false => *parts.last_mut().expect("never empty") += &printer.rule(rule),
        }
    }
    parts.retain(|part| !part.is_empty());
    parts.join("\n")
}

/// A joined rule, an alternative on each line with how it binds and where it came from.
fn hub(answer: &Answer, remarks: &[Remark], printer: &mut Printer, rule: &Rule) -> String {
    let mut out = format!("{}:\n", printer.head(rule));
    let texts = rule.alternatives.iter().map(|own| printer.alternative(own));
    let texts: Vec<String> = texts.collect();
    let widths = texts.iter().map(|text| text.chars().count());
    let width = widths.filter(|width| *width <= WIDEST).max().unwrap_or(0);
    for (place, (own, text)) in rule.alternatives.iter().zip(texts).enumerate() {
        let mark = if place == 0 { " " } else { "|" };
        let (level, form) = (levels::level(rule, place), levels::form(own, rule.name));
        let source = source(answer, rule, own.id);
        let warned = warned(remarks, own.id);
        let _ = writeln!(
            out,
            "  {mark}{text:width$}  // level {level}, {form}; {source}{warned}"
        );
    }
    out + ";\n"
}

/// The numbers of the warnings about an alternative, as the head has them.
fn warned(remarks: &[Remark], id: u32) -> String {
    let warnings = remarks.iter().filter(|remark| remark.is_warning);
    let about = (1..)
        .zip(warnings)
        .filter(|(_, own)| own.about.contains(&id));
    about
        .map(|(number, _)| format!("; warning {number}"))
        .collect()
}

fn source(answer: &Answer, rule: &Rule, id: u32) -> String {
    let slot = answer.slots[&id];
    let fills = |own: &&Alternative| answer.slots[&own.id] == slot;
    let shared: Vec<u32> = rule
        .alternatives
        .iter()
        .filter(fills)
        .map(|own| own.id)
        .collect();
    let mut slot = answer.tell(slot).to_owned();
    if let (Some(place), true) = (shared.iter().position(|own| *own == id), shared.len() > 1) {
        let _ = write!(slot, " ({} of {})", place + 1, shared.len());
    }
    match answer.origins.get(&id) {
        Some(origin) => format!("slot {slot}, origin {}", answer.tell(*origin)),
        None => format!("slot {slot}, untouched"),
    }
}
