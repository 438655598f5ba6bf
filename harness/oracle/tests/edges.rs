//! The sheets on edges: each stands on the side of its line that its name says
//! (SPECIFICATION 4.7 to 4.9, 4.21, 4.22).

use oracle::book::{FILES, Question};
use oracle::{Answer, ask, ask_sheet};
use sheets::codec::read;
use sheets::tree::Sheet;

fn questions() -> Vec<Question> {
    let file = FILES.iter().find(|file| file.name == "edges.txt");
    file.expect("the file of edges").questions()
}

fn bytes(name: &str) -> Vec<u8> {
    let asked = questions().into_iter().find(|asked| asked.name == name);
    asked.unwrap_or_else(|| panic!("no sheet {name}")).bytes
}

fn answer(name: &str) -> Answer {
    ask(&bytes(name))
}

/// The words of the result once the sheet was changed, or the refusal.
fn words_of(name: &str, change: fn(&mut Sheet)) -> Result<usize, u32> {
    let mut sheet = read(&bytes(name)).expect("a sheet");
    change(&mut sheet);
    ask_sheet(&sheet).map(|done| done.words().len())
}

/// The clauses of the cycles left, or the refusal.
fn clauses(name: &str) -> Result<Vec<u32>, u32> {
    answer(name).map(|done| done.declined.iter().map(|decline| decline.clause).collect())
}

#[test]
fn a_full_list_is_declined_and_one_more_is_refused() {
    for (full, beyond) in [
        ("alternatives 1024", "alternatives 1025"),
        ("elements 8192", "elements 8193"),
        ("options 2048", "options 2049"),
    ] {
        assert_eq!(clauses(full), Ok(vec![11]), "{full}");
        assert_eq!(clauses(beyond), Err(7), "{beyond}");
    }
}

#[test]
fn nothing_is_judged_without_a_step() {
    assert_eq!(clauses("1025 alternatives without a step"), Ok(vec![10]));
    assert_eq!(clauses("2049 options without a step"), Ok(vec![10]));
}

#[test]
fn a_counter_may_end_at_its_end() {
    for (place, sort) in [
        "alternatives",
        "elements",
        "labels",
        "actions",
        "predicates",
    ]
    .iter()
    .enumerate()
    {
        let done = answer(&format!("counter of {sort} at its end")).expect("it fits");
        let counters = done.result.counters;
        let ends = [
            counters.alternative,
            counters.element,
            counters.label,
            counters.action,
            counters.predicate,
        ];
        assert_eq!(ends[place], u32::MAX, "{sort}");
        let past = answer(&format!("counter of {sort} past its end"));
        assert_eq!(past.map(|_| ()), Err(8), "{sort}");
    }
}

#[test]
fn what_is_met_first_decides() {
    assert_eq!(clauses("7 in front of a plan"), Err(7));
    assert_eq!(clauses("declined in front of a plan"), Ok(vec![1]));
    assert_eq!(clauses("7 in front of a blocked corner"), Err(7));
    assert_eq!(clauses("8 before 9"), Err(8));
    assert_eq!(clauses("a blocked corner in front of 7"), Ok(vec![6]));
    let dangling = "a dangling reference in front of a blocked corner";
    assert_eq!(clauses(dangling), Ok(vec![5]));
    assert_eq!(clauses("7 before 8"), Err(7));
}

#[test]
fn a_tail_counts_as_it_derives() {
    assert_eq!(clauses("a call behind the hub"), Ok(vec![]));
    assert_eq!(clauses("an unknown call behind the hub"), Ok(vec![]));
    assert_eq!(clauses("empty by way of another rule"), Ok(vec![11]));
}

#[test]
fn what_is_joined_is_as_large_as_its_name_says() {
    let joined = |name: &str| answer(name).unwrap_or_else(|number| panic!("{name}: {number}"));
    assert_eq!(joined("rules 20").result.rules.len(), 19);
    assert_eq!(joined("rules 128").result.rules.len(), 127);
    assert_eq!(joined("chain of 24").steps(), 24);
    assert_eq!(joined("65 steps of 81").steps(), 65);
    assert_eq!(joined("trail of 2049 entries").trail.len(), 2_049);
    assert_eq!(joined("edge-9 with 38 options").words().len(), 8_192);
    assert_eq!(clauses("edge-9 with 39 options"), Err(9));
    assert_eq!(clauses("result over 32768 bytes"), Err(9));
}

#[test]
fn a_result_is_too_long_for_the_reason_that_its_name_says() {
    for reason in [
        "by options of elements",
        "by options of alternatives",
        "by nested alternatives",
        "by one preserved id",
        "by a satellite that stays",
        "by a rule outside the cycle",
        "in the second plan",
        "in front of 7",
        "in front of 8",
    ] {
        assert_eq!(clauses(&format!("9 {reason}")), Err(9), "{reason}");
    }
    let one_id_less = |sheet: &mut Sheet| sheet.preserved.truncate(sheet.preserved.len() - 1);
    let first_two = |sheet: &mut Sheet| sheet.rules.truncate(2);
    let behind_two = |sheet: &mut Sheet| sheet.rules = sheet.rules.split_off(2);
    assert_eq!(words_of("9 by one preserved id", one_id_less), Ok(8_192));
    assert_eq!(
        words_of("9 by a satellite that stays", one_id_less),
        Ok(8_192)
    );
    assert_eq!(
        words_of("9 by a rule outside the cycle", first_two),
        Ok(8_192)
    );
    assert_eq!(words_of("9 in the second plan", first_two), Ok(45));
    assert_eq!(words_of("9 in front of 7", behind_two), Err(7));
    assert_eq!(words_of("9 in front of 8", behind_two), Err(8));
}
