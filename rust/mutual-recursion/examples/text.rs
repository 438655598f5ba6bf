//! A grammar's text in, the joined grammar's text out: `cargo run --example text GRAMMAR`

use std::error::Error;

use mutual_recursion::{Joined, Kind, Reading, join};
use notation::{Grammar, Sheet, Sort, Style, parse, print};

const GRAMMAR: &str = "sum: product x=INT {$x.value} | INT; product: sum TIMES;";

fn main() -> Result<(), Box<dyn Error>> {
    let text = match std::env::args_os().nth(1) {
        Some(path) => std::fs::read_to_string(path)?,
        None => GRAMMAR.to_owned(),
    };
    print!("{}", joined_text(&text)?);
    Ok(())
}

fn joined_text(text: &str) -> Result<String, Box<dyn Error>> {
    let mut grammar = parse(text)?;
    let joined = join(&grammar.sheet.bytes(), Reading::Original)?;
    hand_on(&mut grammar, &joined);
    grammar.sheet = Sheet::of_bytes(&joined.sheet).ok_or("the pass hands back a sheet")?;
    Ok(print(&grammar, Style::Plain))
}

/// A sheet has no place for the `value` of `$x.value`: copies of actions and predicates have that of what was copied.
fn hand_on(grammar: &mut Grammar, joined: &Joined) {
    for entry in &joined.trail {
        let sort = match entry.kind {
            Kind::Action => Sort::Action,
            Kind::Predicate => Sort::Predicate,
            _ => continue,
        };
        if let Some(texts) = grammar.attributes.get(&(sort, entry.owner)).cloned() {
            grammar.attributes.insert((sort, entry.id), texts);
        }
    }
}

#[test]
fn the_sum_is_joined() {
    let text = joined_text(GRAMMAR).expect("a grammar");
    assert_eq!(text, "sum: sum TIMES x=INT {$x.value} | INT;\n");
    assert!(joined_text("sum: product").is_err());
}
