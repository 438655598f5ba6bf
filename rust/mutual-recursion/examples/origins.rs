//! Slots and origins as values, and the cycles of a grammar with what is decided for each: `cargo run --example origins`

use std::error::Error;

use mutual_recursion::{Decision, Reading, cycles, origins};
use notation::{Grammar, parse};

const GRAMMAR: &str = "
    value: sum | product | NUMBER | OPEN value CLOSE;
    sum: value PLUS value | value MINUS value;
    product: value TIMES value;
    left: right X;
    right: left Y;
";

fn main() -> Result<(), Box<dyn Error>> {
    for line in told(&parse(GRAMMAR)?)? {
        println!("{line}");
    }
    Ok(())
}

fn told(grammar: &Grammar) -> Result<Vec<String>, Box<dyn Error>> {
    let sheet = grammar.sheet.bytes();
    let mut lines = Vec::new();
    for cycle in cycles(&sheet, Reading::Original)? {
        let members = cycle.members;
        lines.push(match cycle.decision {
            Decision::Planned(plan) => format!("rules {members:?} are joined in {}", plan.hub),
            Decision::Declined(clause) => format!("rules {members:?} are left: {clause}"),
            Decision::TooLarge => format!("rules {members:?} grow too large"),
        });
    }
    for found in origins(&sheet, Reading::Original)? {
        let place = place(grammar, found.slot);
        lines.push(match found.origin {
            Some(origin) => format!("{place} is filled from {}", self::place(grammar, origin)),
            None => format!("{place} is as it was"),
        });
    }
    Ok(lines)
}

/// An alternative handed in as its rule's id and its number there, from 1 on.
fn place(grammar: &Grammar, alternative: u32) -> String {
    for rule in &grammar.sheet.rules {
        let at = rule
            .alternatives
            .iter()
            .position(|own| own.id == alternative);
        if let Some(at) = at {
            return format!("alternative {} of rule {}", at + 1, rule.id);
        }
    }
    unreachable!("it was handed in")
}

#[test]
fn two_alternatives_fill_one_slot() {
    let lines = told(&parse(GRAMMAR).expect("a grammar")).expect("a sheet");
    assert_eq!(lines[0], "rules [1, 2, 3] are joined in 1");
    assert!(lines[1].starts_with("rules [4, 5] are left: no hub"));
    assert_eq!(
        lines[2],
        "alternative 1 of rule 1 is filled from alternative 1 of rule 2"
    );
    assert_eq!(
        lines[3],
        "alternative 1 of rule 1 is filled from alternative 2 of rule 2"
    );
    assert_eq!(
        lines[4],
        "alternative 2 of rule 1 is filled from alternative 1 of rule 3"
    );
    assert_eq!(lines[5], "alternative 3 of rule 1 is as it was");
}
