//! What is said where a sheet is refused: of a text with its rules and lines.

use mutual_recursion::{CycleLeft, Decision, Reading, Refusal, convert, cycles, join};
use notation::{Place, Printer, Rule, Sheet, Sort, Style, Text};

use crate::input::Input;

/// The most entries of a trail (SPECIFICATION 4.9).
const MOST_ENTRIES: usize = 4_096;
const MOST_BYTES: usize = 32_768;
/// Rule flags by which a cycle with the rule in it is declined.
const STOPPED: u32 = 3;

pub fn told(refusal: Refusal, input: &Input, reading: Reading) -> String {
    let number = refusal.number();
    let Some(text) = &input.text else {
        let more = match refusal {
            Refusal::BadLength => format!("; it has {} bytes", input.bytes.len()),
            Refusal::BadRecord if convert(&input.bytes).is_ok() => {
                "; it can be read as an old sheet, of which join --convert makes one of today"
                    .to_owned()
            }
            _ => String::new(),
        };
        return format!("the sheet is refused by {number}: {refusal}{more}");
    };
    let cause = match refusal {
        Refusal::BadLength => too_long(text, input.bytes.len()),
        Refusal::SharedNumber => shared(text),
        Refusal::IdPastCounter => past_counter(text),
        _ => at_cycle(text, reading, refusal),
    };
    let cause = cause.unwrap_or_else(|| refusal.to_string());
    format!("{} is refused by {number}: {cause}", input.name)
}

fn name(text: &Text, rule: &Rule) -> String {
    let printer = Printer::of(&text.grammar, Style::Plain);
    let name = printer.name(rule.name, Place::Rule);
    match text.spot(Sort::Rule, rule.id) {
        Some((line, _)) => format!("`{name}` (line {line})"),
        None => format!("`{name}`"),
    }
}

fn bytes_of(rule: &Rule) -> usize {
    let alone = |rules| Sheet {
        rules,
        ..Sheet::default()
    };
    alone(vec![rule.clone()]).bytes().len() - alone(Vec::new()).bytes().len()
}

fn too_long(text: &Text, bytes: usize) -> Option<String> {
    let rules = text.grammar.sheet.rules.iter();
    let largest = rules.max_by_key(|rule| bytes_of(rule))?;
    let (own, count) = (bytes_of(largest), largest.alternatives.len());
    Some(format!(
        "its sheet has {bytes} bytes of at most {MOST_BYTES}; {own} of them are those of {}, which has {count} alternatives",
        name(text, largest)
    ))
}

fn word_of(sort: Sort) -> &'static str {
    match sort {
        Sort::Rule => "rules",
        Sort::Alternative => "alternatives",
        Sort::Element => "elements",
        Sort::Label => "labels",
        Sort::Action => "actions",
        Sort::Predicate => "predicates",
    }
}

fn shared(text: &Text) -> Option<String> {
    for (place, (sort, id, second)) in text.spots.iter().enumerate() {
        let mut earlier = text.spots[..place].iter();
        if let Some((_, _, first)) = earlier.find(|own| (own.0, own.1) == (*sort, *id)) {
            return Some(format!(
                "two {} have the id {id}: line {}, column {} and line {}, column {}",
                word_of(*sort),
                first.0,
                first.1,
                second.0,
                second.1
            ));
        }
    }
    None
}

fn past_counter(text: &Text) -> Option<String> {
    let own = text.grammar.sheet.counters;
    let counter = |sort| match sort {
        Sort::Rule => None,
        Sort::Alternative => Some(own.alternative),
        Sort::Element => Some(own.element),
        Sort::Label => Some(own.label),
        Sort::Action => Some(own.action),
        Sort::Predicate => Some(own.predicate),
    };
    let mut spots = text.spots.iter();
    let (sort, id, (line, column)) =
        spots.find(|(sort, id, _)| counter(*sort).is_some_and(|end| *id >= end))?;
    let (counters, _) = text.counters.unwrap_or_default();
    Some(format!(
        "the id {id} in line {line}, column {column} is not below the counter of {}, which line {counters} sets to {}",
        word_of(*sort),
        counter(*sort)?
    ))
}

/// The cycle at which the pass is refused by 7, 8 or 9.
fn at_cycle(text: &Text, reading: Reading, refusal: Refusal) -> Option<String> {
    let (sheet, cycle) = cycle_of(&text.grammar.sheet, reading)?;
    let rule = |id: u32| sheet.rules.iter().find(|rule| rule.id == id);
    let named = |id: &u32| rule(*id).map_or_else(String::new, |rule| name(text, rule));
    let members: Vec<String> = cycle.members.iter().map(named).collect();
    let members = members.join(", ");
    let hub = match &cycle.decision {
        Decision::Planned(plan) => plan.hub,
        _ => crate::why::hub_of(&sheet, &cycle.members)?,
    };
    let list = named(&hub);
    Some(match refusal {
        Refusal::PlanTooLarge => format!(
            "the cycle of {members} is too large to be joined: the list of alternatives of {list} grows past 1,024 \
             alternatives, 8,192 elements or 2,048 options"
        ),
        Refusal::CounterPastEnd => {
            let (line, _) = text.counters.unwrap_or_default();
            format!(
                "the counters in line {line} leave too few ids for joining the cycle of {members} in {list}"
            )
        }
        _ => format!(
            "with the cycle of {members} joined in {list} the sheet has over {MOST_BYTES} bytes, or the trail over 4,096 entries"
        ),
    })
}

/// The grammar as it stands where the pass ends, and the cycle that is then at hand.
fn cycle_of(sheet: &Sheet, reading: Reading) -> Option<(Sheet, CycleLeft)> {
    let (mut sheet, mut entries) = (sheet.clone(), 0);
    loop {
        let found = cycles(&sheet.bytes(), reading).ok()?;
        let declined = |own: &CycleLeft| matches!(own.decision, Decision::Declined(_));
        let next = found.into_iter().find(|own| !declined(own))?;
        let after = match next.decision {
            Decision::TooLarge => None,
            _ => joined_alone(&sheet, &next.members, reading),
        };
        match after {
            Some((after, more)) if entries + more <= MOST_ENTRIES => {
                (sheet, entries) = (after, entries + more);
            }
            _ => return Some((sheet, next)),
        }
    }
}

/// The grammar with this cycle joined, and how many entries its trail has: the flags of all other rules are set for the
/// while, so that no other cycle is.
fn joined_alone(sheet: &Sheet, members: &[u32], reading: Reading) -> Option<(Sheet, usize)> {
    let mut marked = sheet.clone();
    for rule in &mut marked.rules {
        if !members.contains(&rule.id) {
            rule.flags = STOPPED;
        }
    }
    let joined = join(&marked.bytes(), reading).ok()?;
    let mut after = Sheet::of_bytes(&joined.sheet)?;
    for rule in &mut after.rules {
        let before = sheet.rules.iter().find(|own| own.id == rule.id);
        rule.flags = before.map_or(rule.flags, |own| own.flags);
    }
    (joined.plans > 0).then_some((after, joined.trail.len()))
}
