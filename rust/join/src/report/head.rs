//! The comments in front of the grammar.

use mutual_recursion::{ARCHIVES, Clause, CycleLeft, Decision, Reading};
use notation::{Kind, Node, Place, Printer, Sort, Style, alternatives};

use crate::VERSION;
use crate::answer::Answer;
use crate::levels::Remark;
use crate::why::{Found, why};

/// Columns that a comment has at most, where words allow.
const COLUMNS: usize = 110;

pub fn head(answer: &Answer, remarks: &[Remark]) -> String {
    let mut lines = vec![
        format!("join {VERSION}"),
        counts(answer, remarks),
        format!("the pass was {ARCHIVES}"),
    ];
    lines.extend(handed(answer));
    let (plans, steps) = (answer.joined.plans, answer.joined.steps);
    lines.push(format!(
        "{}, {}",
        counted(plans as usize, "plan"),
        counted(steps as usize, "step")
    ));
    lines.push(format!("joined: {}", list(answer, &answer.hubs)));
    lines.push(format!("removed: {}", list(answer, &removed(answer))));
    lines.extend(left(answer));
    lines.extend(symbols(answer));
    lines.extend(told(remarks));
    if !answer.hubs.is_empty() {
        lines.push(LEGEND.to_owned());
    }
    lines.iter().map(|line| comment(line)).collect()
}

/// What a reader of a release file looks for first.
fn counts(answer: &Answer, remarks: &[Remark]) -> String {
    let (joined, left) = (answer.joined.plans, answer.left.len());
    let warnings = remarks.iter().filter(|remark| remark.is_warning).count();
    format!("cycles joined: {joined}; cycles left: {left}; warnings: {warnings}")
}

/// Warnings with their numbers, and notes without.
fn told(remarks: &[Remark]) -> Vec<String> {
    let mut number = 0;
    let one = |remark: &Remark| {
        if !remark.is_warning {
            return format!("note: {}", remark.text);
        }
        number += 1;
        format!("warning {number}: {}", remark.text)
    };
    remarks.iter().map(one).collect()
}

/// What came in and what goes out, by their digests, and the options in force.
fn handed(answer: &Answer) -> Vec<String> {
    let reading = match answer.reading {
        Reading::Original => "the original's",
        Reading::Textbook => "the textbook's",
    };
    let options = match answer.options.is_empty() {
        true => "none".to_owned(),
        false => answer.options.join(" "),
    };
    let mut lines = vec![format!(
        "options: {options}; {reading} reading of left corners"
    )];
    lines.push(format!("file handed in: {}", answer.name));
    if answer.is_text {
        lines.push(digest("text", &answer.file, "byte"));
    }
    lines.push(match &answer.table {
        Some(table) => {
            let names = counted(answer.before.names.all().count(), "name");
            format!("table of names: SHA-256 {}, {names}", sha256::hex(table))
        }
        None => "table of names: none".to_owned(),
    });
    lines.push(digest(
        "sheet handed in",
        &answer.before.sheet.bytes(),
        "byte",
    ));
    lines.push(digest("sheet handed back", &answer.joined.sheet, "byte"));
    lines
}

fn digest(what: &str, bytes: &[u8], unit: &str) -> String {
    let length = counted(bytes.len(), unit);
    format!("{what}: SHA-256 {}, {length}", sha256::hex(bytes))
}

fn removed(answer: &Answer) -> Vec<u32> {
    let kept = |id| answer.after.sheet.rules.iter().any(|rule| rule.id == id);
    let ids = answer.before.sheet.rules.iter().map(|rule| rule.id);
    ids.filter(|id| !kept(*id)).collect()
}

/// A line for each cycle that is still there, with the reason.
fn left(answer: &Answer) -> Vec<String> {
    let unit = match answer.after.sheet.kind {
        1 => "a lexer unit",
        3 => "a combined unit",
        _ => return answer.left.iter().map(|own| cycle(answer, own)).collect(),
    };
    let told = |own: &CycleLeft| format!("cycle left: {}", list(answer, &own.members));
    let mut lines = vec![format!("{unit}, in which no cycle is joined")];
    lines.extend(answer.left.iter().map(told));
    lines
}

/// The members with their lines, the clause, and the one cause with its place.
fn cycle(answer: &Answer, cycle: &CycleLeft) -> String {
    let Decision::Declined(clause) = cycle.decision else {
        unreachable!("a result's cycle is declined: {:?}", cycle.decision)
    };
    let members: Vec<String> = cycle
        .members
        .iter()
        .map(|id| list(answer, &[*id]) + &line(answer, Sort::Rule, *id))
        .collect();
    let members = members.join(", ");
    let number = clause.number();
    let printer = Printer::of(&answer.before, Style::Plain);
    let name = |name: u32| printer.name(name, Place::Rule);
    let found = why(&answer.after.sheet, &cycle.members, answer.reading, &name);
    match found.filter(|found| found.clause == number) {
        Some(found) => format!(
            "cycle left: {members}; clause {number}, {}: {}{}",
            short(clause),
            found.how,
            place(answer, &found)
        ),
        None => format!("cycle left: {members}; clause {number}, {clause}"),
    }
}

/// The first words of a clause, which name it.
fn short(clause: Clause) -> String {
    let text = clause.to_string();
    text.split(':').next().unwrap_or_default().to_owned()
}

fn line(answer: &Answer, sort: Sort, id: u32) -> String {
    match answer.spot(sort, id) {
        Some((line, _)) => format!(" (line {line})"),
        None => String::new(),
    }
}

/// The alternative and the element at which a cycle was turned back.
fn place(answer: &Answer, found: &Found) -> String {
    let alternative = |id: u32| {
        let line = line(answer, Sort::Alternative, id);
        format!("{}{line}", answer.tell_after(id))
    };
    let mut out = String::new();
    if let Some(slot) = found.slot {
        out += &format!("; in the place of {}", alternative(slot));
    }
    if let Some(origin) = found.origin {
        out += &format!(", of {}", alternative(origin));
    }
    if let Some((line, column)) = found.element.and_then(|id| answer.spot(Sort::Element, id)) {
        out += &format!(", at line {line}, column {column}");
    }
    out
}

/// Calls that no rule answers: what is meant may be a token, or a rule that is misspelled.
fn symbols(answer: &Answer) -> Option<String> {
    let sheet = &answer.before.sheet;
    let printer = Printer::of(&answer.before, Style::Plain);
    let mut names = Vec::new();
    for rule in &sheet.rules {
        alternatives(&rule.alternatives, &mut |node| {
            if let Node::Element(_, own) = node
                && let Kind::Call { name, .. } = own.kind
                && !sheet.rules.iter().any(|rule| rule.name == name)
            {
                names.push(printer.name(name, Place::Call));
            }
        });
    }
    names.sort_unstable();
    names.dedup();
    let told = || {
        format!(
            "read as symbols, since no rule has the name: {}",
            names.join(", ")
        )
    };
    (!names.is_empty()).then(told)
}

/// The names of rules handed in.
fn list(answer: &Answer, ids: &[u32]) -> String {
    let printer = Printer::of(&answer.before, Style::Plain);
    let rule = |id| answer.before.sheet.rules.iter().find(|rule| rule.id == id);
    let names = ids.iter().filter_map(|id| rule(*id));
    let names: Vec<String> = names
        .map(|rule| printer.name(rule.name, Place::Rule))
        .collect();
    match names.is_empty() {
        true => "none".to_owned(),
        false => names.join(", "),
    }
}

const LEGEND: &str = "behind an alternative of a joined rule: its level, of which the higher binds tighter; its form, \
                      by where the rule's own call stands: at both ends (binary), in front (suffix), at the end \
                      (prefix) or at neither (primary); its slot, the alternative handed in whose place it fills; \
                      and its origin, the one handed in from which it was taken last";

fn counted(number: usize, what: &str) -> String {
    match number {
        1 => format!("1 {what}"),
        _ => format!("{number} {what}s"),
    }
}

/// A comment, on more lines than one where it is long.
fn comment(text: &str) -> String {
    let mut out = "//".to_owned();
    let mut column = out.len();
    for word in text.split(' ') {
        if column + 1 + word.len() > COLUMNS {
            out.push_str("\n//  ");
            column = 4;
        }
        out.push(' ');
        out.push_str(word);
        column += 1 + word.len();
    }
    out + "\n"
}
