//! The laws hold of the original, and are tests that can fail: of a wrong pass, of a wrong renaming, of a wrong law.

mod common;

use std::sync::atomic::AtomicBool;

use common::{Change, answering, bytes, leaving};
use oracle::ask;
use pass::changes::{Renaming, carried_in, carry, raise, raised_in};
use pass::law_run::{Broken, Counts, LawRun, side_by_side};
use pass::laws::{Breach, carried, original, own_result, raised, renamed};
use pass::outcome::{Outcome, judged};
use pass::program::{Fault, hex};
use sheets::codec::{bytes_of, encode, tree, words_of};
use sheets::parse::{parse, sheet};
use sheets::tree::{Kind, Label, Sheet};
use sheets::walk::{self, Mark, marks};

const JOINED: &str = "e: a | INT; a: e PLUS;";

fn run(make: impl Fn(&[u8]) -> Outcome + Sync + Copy) -> Result<Counts, Broken> {
    let entry = leaving(make);
    let mut run = LawRun::new([&entry, &entry]);
    let stop = AtomicBool::new(false);
    run.seeds(3, 0..600, &stop).map(|()| run.counts)
}

/// Such a pass is stopped by the law.
fn breaks(law: &str, make: impl Fn(&[u8]) -> Outcome + Sync + Copy) {
    let broken = run(make).expect_err("a wrong pass");
    let what = broken.first.what;
    assert!(
        what.starts_with(law) && what.ends_with("the pass"),
        "{what}"
    );
}

fn right(sheet: &[u8]) -> Outcome {
    judged(sheet).readings[0].clone()
}

/// The right outcome with a change of the result, which knows the sheet.
fn with_result(bytes: &[u8], change: impl Fn(&Sheet, &mut Sheet)) -> Outcome {
    let mut outcome = right(bytes);
    if outcome.number() == 0 {
        let mut result = tree(&outcome.result).expect("a sheet");
        change(&tree(bytes).expect("a sheet"), &mut result);
        outcome.result = bytes_of(&encode(&result));
        outcome.numbers[3] = outcome.result.len() as u32;
    }
    outcome
}

#[test]
fn the_original_keeps_the_laws() {
    let entries = [0, 1].map(|reading| answering(reading, &|_, _| ()));
    let entries: [pass::compare::Pass; 2] = [&entries[0], &entries[1]];
    let mut one = LawRun::new(entries);
    let counts = one.seeds(3, 0..400, &AtomicBool::new(false));
    let counts = counts.map(|()| one.counts).expect("no breach");
    assert_eq!(counts.sheets(), 400);
    for answers in counts.answers {
        assert!(answers.joined > 80, "{answers}");
        assert!(
            answers.numbers[3..].iter().all(|count| *count > 1),
            "{answers}"
        );
    }
    for changed in [counts.renamed, counts.carried, counts.raised] {
        assert!(changed.sheets > 300, "{changed}");
        assert!(changed.refused.iter().all(|count| *count > 1), "{changed}");
    }
    assert!(counts.across[1] > 0, "{counts:?}");
}

#[test]
fn threads_have_all_sheets_between_them() {
    let entry = leaving(right);
    let mut one = LawRun::new([&entry, &entry]);
    let counts = one.seeds(3, 0..100, &AtomicBool::new(false));
    let counts = counts.map(|()| one.counts).expect("no breach");
    let both = side_by_side([&entry, &entry], 3, 0..100).expect("no breach");
    assert_eq!(both, counts);
    let wrong = leaving(|bytes| with_result(bytes, |_, after| drop(after.rules.pop())));
    assert!(side_by_side([&wrong, &wrong], 3, 0..100).is_err());
}

#[test]
fn a_pass_that_leaves_work_is_stopped() {
    breaks("own result", |bytes| match ask(bytes) {
        Ok(done) if done.plans() != 0 => {
            let ends = done.trail.iter().position(|entry| entry[0] == 1);
            let first = &done.trail[..=ends.expect("a plan ends with its hub")];
            Outcome::accepted(&done.stages[..1], &done.stages[0].after, first)
        }
        _ => right(bytes),
    });
    breaks("own result", |bytes| {
        with_result(bytes, |before, after| after.counters = before.counters)
    });
    // It has 0 plans with its own result, which is not enough.
    breaks("own result", |bytes| {
        with_result(bytes, |_, after| drop(after.rules.pop()))
    });
    breaks("own result", |bytes| {
        let mut outcome = right(bytes);
        outcome.numbers[1] += u32::from(outcome.number() == 0);
        outcome
    });
}

#[test]
fn a_pass_that_looks_at_names_is_stopped() {
    breaks("renaming", |bytes| {
        with_result(bytes, |_, after| after.rules.sort_by_key(|rule| rule.name))
    });
    breaks("renaming", |bytes| {
        with_result(bytes, |_, after| {
            for own in after
                .rules
                .iter_mut()
                .flat_map(|rule| &mut rule.alternatives)
            {
                own.options.sort_by_key(|option| option.name);
            }
        })
    });
    breaks("renaming", |bytes| {
        with_result(bytes, |_, after| {
            marks(after, &mut |mark, name| {
                if mark == Mark::Token && *name == 1 {
                    *name = 2;
                }
            })
        })
    });
    // Sheets that 5 refuses are asked too.
    breaks("renaming", |bytes| match right(bytes).number() {
        5 => Outcome::refused(5 + words_of(bytes)[1] % 2),
        _ => right(bytes),
    });
}

#[test]
fn a_pass_that_looks_at_carried_numbers_is_stopped() {
    breaks("carried numbers", |bytes| {
        let outcome = right(bytes);
        let carries = |tree: &Sheet| carried_in(tree).iter().any(|own| *own != 0);
        match outcome.plans() != 0 && carries(&tree(bytes).expect("a sheet")) {
            true => Outcome::still(bytes),
            false => outcome,
        }
    });
    breaks("carried numbers", owned_by_the_carried_number);
    breaks("carried numbers", |bytes| {
        with_result(bytes, |before, after| {
            let all = after
                .rules
                .iter_mut()
                .flat_map(|rule| &mut rule.alternatives);
            for new in all.filter(|own| before.counters.alternative <= own.id) {
                new.labelled = new.carried != 0;
            }
        })
    });
    // Sheets that 6 refuses are asked too.
    breaks("carried numbers", |bytes| match right(bytes).number() {
        6 => {
            let carried = carried_in(&tree(bytes).expect("a sheet"));
            Outcome::refused(5 + u32::from(carried[0] == 0))
        }
        _ => right(bytes),
    });
}

#[test]
fn a_pass_that_looks_at_precedences_is_stopped() {
    let raises = |bytes: &[u8]| {
        let words = raised_in(&tree(bytes).expect("a sheet"));
        words.iter().any(|word| *word != 0)
    };
    breaks("precedences", |bytes| {
        let outcome = right(bytes);
        match outcome.plans() != 0 && raises(bytes) {
            true => Outcome::still(bytes),
            false => outcome,
        }
    });
    breaks("precedences", |bytes| match right(bytes).number() {
        6 => Outcome::refused(5 + u32::from(raises(bytes))),
        _ => right(bytes),
    });
    breaks("precedences", |bytes| {
        with_result(bytes, |before, after| {
            let many = raised_in(before).iter().filter(|word| **word != 0).count();
            after.counters.label = after.counters.label.saturating_add(many as u32);
        })
    });
}

/// An entry of reason 1 for an alternative has the carried number of its origin for its owner.
fn owned_by_the_carried_number(bytes: &[u8]) -> Outcome {
    let mut outcome = right(bytes);
    let mut trail = words_of(&outcome.trail);
    for entry in trail
        .chunks_exact_mut(4)
        .filter(|own| own[..] == [2, own[1], 1, own[3]])
    {
        for rule in &tree(bytes).expect("a sheet").rules {
            let origin = rule.alternatives.iter().find(|own| own.id == entry[3]);
            entry[3] = origin.map_or(entry[3], |own| own.carried);
        }
    }
    outcome.trail = bytes_of(&trail);
    outcome
}

/// What is told of a pass that leaves what no outcome is.
fn left_wrong(change: &Change) -> String {
    let entry = answering(0, change);
    let mut run = LawRun::new([&entry, &entry]);
    let broken = run.seeds(3, 0..600, &AtomicBool::new(false));
    let told = broken.expect_err("a wrong pass").first.what;
    assert!(told.starts_with("one call"), "{told}");
    told
}

#[test]
fn every_call_must_leave_an_outcome() {
    for (what, area) in [("result", 0), ("trail", 1), ("work area", 2)] {
        let told = left_wrong(&move |_, lent| *lent[area].last_mut().expect("a byte") = 1);
        assert!(told.contains(what), "{told}");
    }
    let told = left_wrong(&|numbers, _| numbers[2] += u32::from(numbers[0] != 0));
    assert!(told.contains("those of no refusal"), "{told}");
    for length in [3, 4] {
        let told = left_wrong(&move |numbers, _| numbers[length] = numbers[length].max(1 << 20));
        assert!(told.contains("numbers"), "{told}");
    }
}

/// Both sheets are printed, and the law in the last line.
#[test]
fn a_breach_is_told_with_both_sheets() {
    let broken = run(|bytes| with_result(bytes, |_, after| drop(after.rules.pop())));
    let broken = broken.expect_err("a wrong pass");
    let both = [&broken.first.sheet, &broken.second].map(|own| hex(own));
    let Fault { lines, last } = broken.into();
    assert!(both.iter().all(|own| lines.contains(own)), "{lines}");
    assert!(last.starts_with("difference: sheet "), "{last}");
    assert!(last.contains("of seed 3: own result: "), "{last}");
}

/// Whether the original keeps the law of renaming with such a renaming of a grammar.
fn kept(grammar: &str, rename: &dyn Fn(&mut Sheet)) -> Result<(), Breach> {
    let first = judged(&bytes(grammar)).readings;
    renamed(&mut original, &sheet(grammar), &first, rename)
}

/// The renaming by texts; the second of each must be new or stand in the grammar.
fn by_text(grammar: &str, texts: &[(&str, &str)]) -> Renaming {
    let (_, mut names) = parse(grammar).expect("a grammar");
    let all = sheets::walk::names_in(&sheet(grammar)).into_iter();
    let moved: Vec<(u32, u32)> = texts
        .iter()
        .map(|(from, to)| (names.number(from), names.number(to)))
        .collect();
    Renaming::of(all.map(|name| (name, name)).chain(moved))
}

fn kept_by_text(grammar: &str, texts: &[(&str, &str)]) -> Result<(), Breach> {
    let renaming = by_text(grammar, texts);
    kept(grammar, &|tree| renaming.apply(tree))
}

fn clauses(bytes: &[u8]) -> Vec<u32> {
    let done = ask(bytes).expect("a sheet that is not refused");
    assert_eq!(done.plans(), 0);
    done.declined.iter().map(|own| own.clause).collect()
}

#[test]
fn two_labels_of_one_name_are_not_two() {
    let grammar = "e: a x=INT | INT; a: y=e PLUS;";
    let apart = [("x", "y"), ("y", "x"), ("e", "new"), ("INT", "e")];
    assert_eq!(kept_by_text(grammar, &apart), Ok(()));
    let breach = kept_by_text(grammar, &[("y", "x")]).expect_err("a label collision");
    assert!(breach.what.contains("numbers"), "{}", breach.what);
    assert_eq!(clauses(&breach.second), [7]);
}

#[test]
fn two_rules_of_one_name_are_refused_by_5() {
    assert_eq!(kept_by_text(JOINED, &[("e", "a"), ("a", "e")]), Ok(()));
    let breach = kept_by_text(JOINED, &[("a", "e")]).expect_err("refusal 5");
    assert_eq!(right(&breach.second), Outcome::refused(5));
}

/// A reference and a token share one space of names: it is declined as long as they do.
#[test]
fn references_are_not_renamed_apart_from_tokens() {
    let grammar = "e: a {$INT} | INT; a: e PLUS INT;";
    assert_eq!(kept_by_text(grammar, &[("INT", "new")]), Ok(()));
    let apart = |tree: &mut Sheet| {
        marks(tree, &mut |mark, name| {
            if mark == Mark::Reference {
                *name = 1_000;
            }
        })
    };
    assert_eq!(right(&bytes(grammar)).plans(), 0);
    let breach = kept(grammar, &apart).expect_err("it is joined");
    assert_eq!(right(&breach.second).plans(), 1);
}

/// With a name in place of the 0 of "no label" all elements have a label, and all of these the id 0.
#[test]
fn the_name_0_is_not_moved() {
    let labels = |tree: &mut Sheet| {
        for rule in &mut tree.rules {
            walk::edit(&mut rule.alternatives, &mut |element| {
                element.label.get_or_insert(Label { id: 0, name: 9 });
            });
        }
    };
    let breach = kept(JOINED, &labels).expect_err("labels share an id");
    assert_eq!(right(&breach.second), Outcome::refused(5));
    // One element alone: its label's id is not below the counter.
    let breach = kept("e: INT;", &labels).expect_err("an id at its counter");
    assert_eq!(right(&breach.second), Outcome::refused(6));
}

/// Names that are not of the sheet may go anywhere, also to names that are.
#[test]
fn only_names_of_the_sheet_matter() {
    assert_eq!(kept_by_text(JOINED, &[("nowhere", "e")]), Ok(()));
}

/// A new alternative has its slot's carried number, so that results are alike and not equal.
#[test]
fn carried_numbers_come_through() {
    let first = judged(&bytes(JOINED)).readings;
    let numbers = |tree: &mut Sheet| carry(tree, 5..);
    assert_eq!(
        carried(&mut original, &sheet(JOINED), &first, &numbers),
        Ok(())
    );
    let mut second = sheet(JOINED);
    numbers(&mut second);
    let second = right(&bytes_of(&encode(&second)));
    assert_eq!(second.numbers, first[0].numbers);
    assert_ne!(second.result, first[0].result);
    let result = tree(&second.result).expect("a sheet");
    assert_eq!(result.rules[0].alternatives[0].carried, 5);
    // With the law of renaming it would be a breach: there carried numbers stay.
    assert!(renamed(&mut original, &sheet(JOINED), &first, &numbers).is_err());
}

/// A copied call has the precedence of the call that was copied, so that results are alike and not equal.
#[test]
fn precedences_come_through() {
    let first = judged(&bytes(JOINED)).readings;
    let words = |tree: &mut Sheet| raise(tree, 5..);
    assert_eq!(
        raised(&mut original, &sheet(JOINED), &first, &words),
        Ok(())
    );
    let mut second = sheet(JOINED);
    words(&mut second);
    let second = right(&bytes_of(&encode(&second)));
    assert_eq!(second.numbers, first[0].numbers);
    assert_ne!(second.result, first[0].result);
    let left = raised_in(&tree(&second.result).expect("a sheet"));
    assert!(left.iter().all(|word| 5 <= *word), "{left:?}");
}

/// The carried number of kind 5 makes another symbol of it, and no other outcome.
#[test]
fn kind_5_is_carried_like_the_others() {
    let grammar = "e: a .~7 | .~8; a: e .~7;";
    let first = judged(&bytes(grammar)).readings;
    assert_eq!(first[0].plans(), 1);
    let alike = |tree: &mut Sheet| carry(tree, std::iter::repeat(8));
    assert_eq!(
        carried(&mut original, &sheet(grammar), &first, &alike),
        Ok(())
    );
    let has_kind_5 = |own: &sheets::tree::Element| own.kind == Kind::Other;
    let elements = sheet(grammar).rules;
    assert!(elements.iter().flat_map(walk::elements).any(has_kind_5));
}

/// What the textbook's reading leaves can be joined by the original's: at once, or once another cycle is joined.
#[test]
fn results_of_the_other_reading_are_not_meant() {
    for (grammar, plans) in [
        ("e: a | INT; a: e PLUS | NAME? e MINUS;", [1, 0]),
        (
            "e: a | INT; a: e PLUS | NAME? e MINUS; f: b | X; b: f Y;",
            [2, 1],
        ),
    ] {
        let first = judged(&bytes(grammar)).readings;
        assert_eq!(first.each_ref().map(Outcome::plans), plans, "{grammar}");
        let joined = own_result(&mut original, &first);
        assert_eq!(joined, Ok([false, true]), "{grammar}");
        let [_, textbook] = &first;
        let across = right(&textbook.result);
        assert_ne!(across, Outcome::still(&textbook.result));
        assert_eq!(across.plans(), 1);
    }
}
