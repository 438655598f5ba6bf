//! Refusals 7 to 9 (SPECIFICATION 4.7 to 4.9): where each line runs, and which comes first
//! (4.21, 4.22).

use oracle::ask_sheet;
use sheets::codec::{bytes_of, encode, read};
use sheets::generate::profile;
use sheets::parse::sheet;
use sheets::tree::Sheet;

fn refusal(sheet: &Sheet) -> Option<u32> {
    ask_sheet(sheet).err()
}

/// A hub whose one corner is spliced into 10 x 10 alternatives with this tail.
fn beyond_9(counters: &str, tail: &str) -> Sheet {
    let b = ["b X"; 10].join(" | ");
    let e = ["e Y"; 10].join(" | ");
    sheet(&format!(
        "%counters {counters}; e: a {tail} | INT; a: {b}; b: {e};"
    ))
}

#[test]
fn eight_comes_before_nine_in_one_plan() {
    let tail = ". . . . . . . . . .";
    assert_eq!(refusal(&beyond_9("100 100 0 0 0", tail)), Some(9));
    assert_eq!(refusal(&beyond_9("4294967290 100 0 0 0", tail)), Some(8));
    assert_eq!(refusal(&beyond_9("100 4294967290 0 0 0", tail)), Some(8));
}

#[test]
fn seven_comes_before_eight() {
    let tail = vec!["."; 90].join(" ");
    assert_eq!(refusal(&beyond_9("4294967290 400 0 0 0", &tail)), Some(7));
}

#[test]
fn a_first_plan_beyond_nine_hides_a_second_beyond_eight() {
    let second = "f: g {} | INT; g: f PLUS;";
    let b = ["b X"; 10].join(" | ");
    let e = ["e Y"; 10].join(" | ");
    let first = format!("e: a . . . . . . . . . . | INT; a: {b}; b: {e};");
    let counters = "%counters 100 100 0 4294967295 0;";
    assert_eq!(
        refusal(&sheet(&format!("{counters} {first} {second}"))),
        Some(9)
    );
    assert_eq!(
        refusal(&sheet(&format!("{counters} {second} {first}"))),
        Some(8)
    );
}

/// The least counter that is too high, for each sort.
#[test]
fn each_counter_may_end_at_its_highest_value_and_not_beyond() {
    let grammar = "e: a x=INT {} &{} | INT; a: e PLUS;";
    // A plan here takes 1 alternative, 5 elements, 1 label, 1 action, 1 predicate.
    for (place, taken) in [1_u32, 5, 1, 1, 1].into_iter().enumerate() {
        let with = |value: u32| {
            let mut counters = [100_u32; 5];
            counters[place] = value;
            let words = counters.map(|word| word.to_string()).join(" ");
            refusal(&sheet(&format!("%counters {words}; {grammar}")))
        };
        assert_eq!(with(u32::MAX - taken), None, "counter {place}");
        assert_eq!(with(u32::MAX - taken + 1), Some(8), "counter {place}");
    }
}

/// Results of 32,768 bytes and of one word more, and nothing else about them.
#[test]
fn nine_begins_one_word_beyond_the_limit() {
    let near = profile("just-9").expect("a profile");
    let (mut at_the_limit, mut beyond) = (0, 0);
    for seed in 0..40 {
        let mut sheet = near.sheet(seed);
        match ask_sheet(&sheet) {
            Ok(done) if done.words().len() == 8_192 => {
                sheet.preserved.push(u32::MAX);
                assert_eq!(refusal(&sheet), Some(9), "seed {seed}");
                at_the_limit += 1;
            }
            Err(9) if sheet.preserved.pop().is_some() => {
                beyond += usize::from(refusal(&sheet).is_none());
            }
            _ => {}
        }
    }
    assert!(
        at_the_limit >= 3 && beyond >= 3,
        "{at_the_limit} at the limit, {beyond} beyond"
    );
}

/// The three sizes of a planned list, each at its limit and one beyond.
#[test]
fn seven_begins_one_beyond_each_limit() {
    let near = profile("near-7").expect("a profile");
    let standard = traced::Limits::STANDARD;
    let one_less = [
        traced::Limits {
            alternatives: standard.alternatives - 1,
            ..standard
        },
        traced::Limits {
            elements: standard.elements - 1,
            ..standard
        },
        traced::Limits {
            options: standard.options - 1,
            ..standard
        },
    ];
    let mut at_the_limit = [0; 3];
    for seed in 0..150 {
        let sheet = near.sheet(seed);
        if refusal(&sheet) == Some(7) {
            continue;
        }
        for (met, limits) in at_the_limit.iter_mut().zip(one_less) {
            *met += usize::from(traced::run(&sheet, limits).err() == Some(7));
        }
    }
    assert!(at_the_limit.iter().all(|met| *met >= 3), "{at_the_limit:?}");
}

#[test]
fn lexer_and_combined_units_come_back_as_they_are() {
    for kind in ["lexer", "combined"] {
        let given = sheet(&format!("%kind {kind}; e: a | INT; a: e PLUS;"));
        let done = ask_sheet(&given).expect("no refusal");
        assert_eq!((done.plans(), done.result), (0, given));
    }
}

#[test]
fn results_are_sheets_again() {
    for seed in 0..300 {
        let given = profile("several").expect("a profile").sheet(seed);
        if let Ok(done) = ask_sheet(&given) {
            let again = read(&bytes_of(&encode(&done.result)));
            assert_eq!(again, Ok(done.result), "seed {seed}");
        }
    }
}
