//! `pass-bench`: how long the proved pass takes for a sheet, side by side with the original.
//!
//! The pass's time is that of the whole call: reading, refusals, and clearing all that is lent. The original's is that of
//! its function alone, over a model loaded before. It has no refusal 7; where that stops the pass, its time is the traced
//! copy's, which is stopped at the same step.

use std::hint::black_box;
use std::time::{Duration, Instant};

use pass::built::{self, Order};
use pass::compare::LEAST;
use pass::outcome;
use pass::proved::rust;
use reader::clock::median;
use sheets::codec::{self, bytes_of, encode};
use sheets::tree::Sheet;
use traced::Limits;

/// How long a sheet is asked about, and how often at least.
const TIME: Duration = Duration::from_millis(1_000);
const ROUNDS: usize = 15;
/// Microseconds between two looks at the clock, at least.
const PART: f64 = 100.0;

struct Case {
    name: &'static str,
    tree: Sheet,
    /// What must be answered: the number and the plans.
    answer: [u32; 2],
    /// How many times as long the original should take at least.
    wanted: f64,
}

fn cases() -> Vec<Case> {
    let case_1 = codec::read(include_bytes!("../../../../examples/case-1.sheet"));
    let case = |name, tree, answer, wanted| Case {
        name,
        tree,
        answer,
        wanted,
    };
    vec![
        case("case 1", case_1.expect("a good sheet"), [0, 1], 1.2),
        case(
            "30 rules, three cycles",
            built::rings(30, 10, 2_816),
            [0, 3],
            12.0,
        ),
        case("32 KB without a cycle", built::downwards(), [0, 0], 1.2),
        case(
            "a ring of 128 rules",
            built::rings(128, 128, 8_192),
            [0, 1],
            8.0,
        ),
        case(
            "64 cycles of two",
            built::rings(128, 2, 8_192),
            [0, 64],
            20.0,
        ),
        case(
            "31 declined, 32 joined",
            built::declined_and_joined(31, 32),
            [0, 32],
            30.0,
        ),
        case(
            "a result of 32,768 bytes",
            built::full_result(),
            [0, 1],
            10.0,
        ),
        case(
            "2,048 options in 32",
            built::options_of_many(),
            [0, 1],
            15.0,
        ),
        case(
            "2,048 options in one",
            built::options_of_one(),
            [0, 1],
            15.0,
        ),
        case(
            "4,000 references, rising",
            built::references(Order::Rising),
            [0, 1],
            1.0,
        ),
        case(
            "4,000 references, falling",
            built::references(Order::Falling),
            [0, 1],
            1.0,
        ),
        case(
            "4,000 references, shuffled",
            built::references(Order::Shuffled),
            [0, 1],
            1.0,
        ),
        case("a loop of 5 alternatives", built::looped(5), [0, 0], 25.0),
        case("stopped by 7", built::too_many_alternatives(), [7, 0], 20.0),
    ]
}

/// What the pass is lent.
struct Ours {
    sheet: Vec<u8>,
    buffers: [Vec<u8>; 3],
    numbers: [u32; 5],
}

impl Ours {
    fn call(&mut self) {
        let lent = self.buffers.each_mut().map(|own| &mut own[..]);
        rust(black_box(&self.sheet), lent, &mut self.numbers);
    }

    fn time(&mut self, calls: usize) -> f64 {
        median(1, calls, || self.call())
    }
}

fn theirs(case: &Case, calls: usize) -> Vec<f64> {
    match case.answer[0] {
        7 => traced::times(&case.tree, Limits::STANDARD, calls),
        _ => original::times(&case.tree, calls),
    }
}

fn middle(mut times: Vec<f64>) -> f64 {
    times.sort_by(f64::total_cmp);
    times[times.len() / 2]
}

/// The medians of both, asked in turn.
fn times(case: &Case, ours: &mut Ours) -> [f64; 2] {
    let calls = |once: f64| (PART / once).clamp(1.0, 100.0) as usize;
    let our_calls = calls(ours.time(3));
    let their_calls = calls(theirs(case, 3)[2]);
    let mut both = [Vec::new(), Vec::new()];
    let began = Instant::now();
    while both[0].len() < ROUNDS || began.elapsed() < TIME {
        both[0].push(ours.time(our_calls));
        both[1].extend(theirs(case, their_calls));
    }
    // The original's clock is looked at for every call.
    let idle = median(1_001, 1, || ());
    let [ours, theirs] = both.map(middle);
    [ours, theirs - idle]
}

/// Whether the original takes as many times as long as is wanted.
fn show(case: &Case) -> bool {
    let mut ours = Ours {
        sheet: bytes_of(&encode(&case.tree)),
        buffers: LEAST.map(|length| vec![0; length]),
        numbers: [0; 5],
    };
    ours.call();
    let expected = outcome::original(&case.tree);
    assert_eq!(ours.numbers, expected.numbers, "{}", case.name);
    assert_eq!(expected.numbers[..2], case.answer, "{}", case.name);
    let [own, other] = times(case, &mut ours);
    let ratio = other / own;
    let below = if ratio < case.wanted { "  below" } else { "" };
    println!(
        "{:<26} {:>6} {own:>10.2} {other:>12.2} {ratio:>9.1} {:>7.1}{below}",
        case.name,
        ours.sheet.len(),
        case.wanted
    );
    case.wanted <= ratio
}

/// The last line: how many were timed, and which are below what is wanted.
fn found(timed: usize, below: &[&str]) -> String {
    let reached = timed - below.len();
    match below {
        [] => format!("{timed} sheets timed: all reach what is wanted"),
        _ => format!(
            "{timed} sheets timed: {reached} reach what is wanted, below it: {}",
            below.join("; ")
        ),
    }
}

fn main() {
    println!(
        "{:<26} {:>6} {:>10} {:>12} {:>9} {:>7}",
        "sheet", "bytes", "ours µs", "original µs", "ratio", "wanted"
    );
    let cases = cases();
    let below: Vec<&str> = cases
        .iter()
        .filter(|case| !show(case))
        .map(|case| case.name)
        .collect();
    println!("{}", found(cases.len(), &below));
}
