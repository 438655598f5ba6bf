//! What is told of a cycle that is declined, held to the library on grammars from a seed: the clause here, the place in
//! `places`, the cause in `causes`.

mod cases;
mod causes;
mod grown;
mod places;

use mutual_recursion::{Decision, Reading, cycles};
use notation::{Grammar, Sheet, parse};

use self::grown::Random;
use super::{Found, why};

const GRAMMARS: u64 = 20_000;
const READINGS: [Reading; 2] = [Reading::Original, Reading::Textbook];

fn grammars(seed: u64) -> impl Iterator<Item = Grammar> {
    let mut random = Random(seed);
    (0..GRAMMARS).map(move |_| {
        let text = random.grammar();
        parse(&text).unwrap_or_else(|fault| panic!("{fault}: {text}"))
    })
}

fn found(sheet: &Sheet, members: &[u32], reading: Reading) -> Option<Found> {
    why(sheet, members, reading, &|name| name.to_string())
}

#[test]
fn clauses_are_those_of_the_library() {
    let mut seen = [0; 12];
    for grammar in grammars(1) {
        let sheet = &grammar.sheet;
        for reading in READINGS {
            for cycle in cycles(&sheet.bytes(), reading).expect("a sheet") {
                let clause = found(sheet, &cycle.members, reading).map(|found| found.clause);
                let text = || notation::print(&grammar, notation::Style::Plain);
                match cycle.decision {
                    Decision::Declined(own) => {
                        assert_eq!(clause, Some(own.number()), "{reading:?}: {}", text());
                        seen[own.number() as usize] += 1;
                    }
                    _ => assert_eq!(clause, None, "{reading:?}: {}", text()),
                }
            }
        }
    }
    let missing = (1..12).filter(|clause| seen[*clause] == 0);
    assert_eq!(missing.collect::<Vec<_>>(), [9; 0], "{seen:?}");
}
