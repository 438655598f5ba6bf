//! A planner that answers by the original's decisions, so that the comparison can be tried without the proved one.
#![allow(dead_code)]

use analysis::compare::WORK;
use analysis::facts::Row;
use plans::answer::Answer;
use plans::compare::{Filled, Question};
use plans::judge::{Judged, judged};
use sheets::tree::OptionDecl;

/// Writes into the work area what `change` makes of the right answer, and hands back the rest.
pub fn answer(
    sheet: &[u8],
    work: &mut [u8],
    textbook: u32,
    question: Question,
    change: &dyn Fn(&mut Answer),
) -> Answer {
    let judged = judged(sheet);
    let mut answer = match (&judged, question) {
        (Err(1), _) => Answer::refused(1),
        _ if work.len() < WORK => Answer::refused(2),
        (Err(number), _) => Answer::refused(*number),
        (Ok(both), Question::Nth(nth)) => Answer::nth(&both[usize::from(textbook != 0)], nth),
        (Ok(both), Question::First) => Answer::first(&both[usize::from(textbook != 0)]),
    };
    change(&mut answer);
    match (&answer.list, &judged) {
        (Some(list), Ok(both)) => list.write(work, |option| place(&both[0], option)),
        _ if matches!(judged, Err(1)) || work.len() < WORK => {}
        _ => work.fill(0),
    }
    answer
}

/// Some place where an option of this name and value stands, or where none does.
fn place(judged: &Judged, option: OptionDecl) -> usize {
    let words = &judged.words;
    let same = |at: &&usize| (words[**at], words[**at + 1]) == (option.name, option.value);
    judged
        .places
        .options
        .iter()
        .find(same)
        .copied()
        .unwrap_or(0)
}

pub fn nth<'a>(
    change: &'a dyn Fn(&mut Answer),
) -> impl Fn(&[u8], &mut [u8], u32, u32, &mut [u32; 8], &mut Row) + 'a {
    move |sheet, work, textbook, nth, numbers, removable| {
        let given = answer(sheet, work, textbook, Question::Nth(nth), change);
        *numbers = given.numbers;
        *removable = given.removable;
    }
}

pub fn first<'a>(change: &'a dyn Fn(&mut Answer)) -> impl Fn(&[u8], &mut [u8], u32, Filled) + 'a {
    move |sheet, work, textbook, filled| {
        let given = answer(sheet, work, textbook, Question::First, change);
        *filled.numbers = given.numbers;
        *filled.cycle = given.cycle;
        *filled.removable = given.removable;
        *filled.clauses = given.clauses;
    }
}
