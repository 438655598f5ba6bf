//! `demand3 seeds FIRST COUNT` checks that many small grammars from seeds on;
//! `demand3 all FIRST COUNT` those of the enumerated ones, `demand3 all` all.
//! `demand3 end-seeds` and `demand3 end-all` do the same with the end of input.

use std::collections::BTreeMap;
use std::process::ExitCode;

use demand3::grammars::{ALL, from_seed, from_seed_with_ends, numbered, numbered_with_ends};
use demand3::readings::Census;
use demand3::{Fault, checked, has_optional_symbol};
use oracle::ask_sheet;
use sheets::codec;
use sheets::names::Names;
use sheets::print::{Style, print};
use sheets::tree::Sheet;

#[derive(Default)]
struct Tally {
    checked: usize,
    joined: usize,
    plans: usize,
    trees: Census,
    /// By fault and by whether the grammar has an optional symbol: how often, and
    /// the smallest grammar.
    faults: BTreeMap<(Fault, bool), (usize, Sheet)>,
}

impl Tally {
    /// Adds a grammar that can be enumerated.
    fn add(&mut self, sheet: &Sheet) {
        let answer = ask_sheet(sheet);
        let Ok(done) = answer else {
            self.checked += 1;
            return;
        };
        let Some(found) = checked(sheet, &done) else {
            return;
        };
        self.checked += 1;
        self.joined += usize::from(done.plans() > 0);
        self.plans += done.plans();
        self.trees.add(found.trees);
        for fault in found.faults {
            let key = (fault, has_optional_symbol(sheet));
            let (times, smallest) = self.faults.entry(key).or_insert((0, sheet.clone()));
            *times += 1;
            if size(sheet) < size(smallest) {
                *smallest = sheet.clone();
            }
        }
    }

    fn report(&self) {
        println!(
            "{} grammars, {} joined, {} plans",
            self.checked, self.joined, self.plans
        );
        let trees = &self.trees;
        println!(
            "trees of a kept rule for a string, where joined: none {}, one {}, several {} (at most {}), \
             too many to count {}, without end {}",
            trees.none, trees.one, trees.several, trees.greatest, trees.most, trees.without_end
        );
        for ((fault, optional), (times, smallest)) in &self.faults {
            let optional = if *optional { "with" } else { "without" };
            println!("{fault:?}, {optional} an optional symbol: {times} times, smallest:");
            print!("{}", print(smallest, &Names::default(), Style::Plain));
        }
    }

    /// Faults other than those of optional symbols in front of a member.
    fn is_as_known(&self) -> bool {
        self.faults
            .keys()
            .all(|(fault, optional)| *optional && fault.is_by_textbook_corners())
    }
}

fn size(sheet: &Sheet) -> usize {
    codec::encode(sheet).len()
}

fn seeds(made: fn(u64) -> Option<Sheet>, first: u64, count: usize) -> Tally {
    let mut tally = Tally::default();
    let mut seed = first;
    while tally.checked < count {
        if let Some(sheet) = made(seed) {
            tally.add(&sheet);
        }
        seed += 1;
    }
    println!("seeds {first} to {}", seed - 1);
    tally
}

fn all(made: fn(usize) -> Option<Sheet>, first: usize, count: usize) -> Tally {
    let mut tally = Tally::default();
    for sheet in (first..first.saturating_add(count).min(ALL)).filter_map(made) {
        tally.add(&sheet);
    }
    tally
}

fn every(number: usize) -> Option<Sheet> {
    Some(numbered(number))
}

fn main() -> ExitCode {
    let arguments: Vec<String> = std::env::args().skip(1).collect();
    let words: Vec<&str> = arguments.iter().map(String::as_str).collect();
    let number = |text: &str| text.parse().expect("a number");
    let tally = match words[..] {
        ["seeds", first, count] => seeds(from_seed, number(first) as u64, number(count)),
        ["end-seeds", first, count] => {
            seeds(from_seed_with_ends, number(first) as u64, number(count))
        }
        ["all"] => all(every, 0, ALL),
        ["all", first, count] => all(every, number(first), number(count)),
        ["end-all"] => all(numbered_with_ends, 0, ALL),
        ["end-all", first, count] => all(numbered_with_ends, number(first), number(count)),
        _ => {
            eprintln!("usage: demand3 [end-]seeds FIRST COUNT | [end-]all [FIRST COUNT]");
            return ExitCode::FAILURE;
        }
    };
    tally.report();
    if tally.is_as_known() {
        return ExitCode::SUCCESS;
    }
    eprintln!("demand3: there are faults that docs/DIFFERENCES.md does not name");
    ExitCode::FAILURE
}
