//! The cycles of a sheet as it stands, and what is decided for each.

use crate::clause::Clause;
use crate::join::Reading;
use crate::lent::{self, Facts, Row};
use crate::refusal::Refusal;
use crate::{RULES, WORK_BYTES};

/// A cycle of a sheet as it stands.
#[derive(Clone, Debug, PartialEq, Eq)]
pub struct CycleLeft {
    /// The ids of its members, rising.
    pub members: Vec<u32>,
    /// What the pass would do about it.
    pub decision: Decision,
}

/// What is decided for a cycle.
#[derive(Clone, Debug, PartialEq, Eq)]
pub enum Decision {
    /// It would be joined.
    Planned(Plan),
    /// It would be left as it is.
    Declined(Clause),
    /// A planned list grows beyond the limits of [`Refusal::PlanTooLarge`].
    TooLarge,
}

/// How a cycle would be joined.
#[derive(Clone, Debug, PartialEq, Eq)]
pub struct Plan {
    /// The id of the rule that takes the others in.
    pub hub: u32,
    /// The substitution steps that it takes.
    pub steps: u32,
    /// How many alternatives the hub would have.
    pub alternatives: u32,
    /// The ids of the rules that would go, rising.
    pub removed: Vec<u32>,
}

/// The cycles of a sheet as it stands, the one with the least id first, and what is decided for each.
///
/// Of a sheet that [`join`](crate::join) has made of a parser unit these are the cycles left, and each is declined. The pass
/// leaves lexer and combined units alone, so that theirs may have a plan.
///
/// ```
/// use mutual_recursion::{Clause, CycleLeft, Decision, Reading, cycles};
///
/// // e: a X;  a: e Y;    with the names e 1, a 2, X 3, Y 4
/// let words = [
///     1, 1, 0, 1, 10, 0, 0, 0, 2, 20, 0, 3, 0, 0, 0, 2, 0, 0, 21, 0, 4, 0, 0, 0, 3,
///     2, 2, 0, 1, 11, 0, 0, 0, 2, 22, 0, 3, 0, 0, 0, 1, 0, 0, 23, 0, 4, 0, 0, 0, 4,
///     2, 50, 0, 12, 24, 0, 0, 0u32,
/// ];
/// let sheet: Vec<u8> = words.iter().flat_map(|word| word.to_le_bytes()).collect();
///
/// let left = cycles(&sheet, Reading::Original)?;
/// let decision = Decision::Declined(Clause::NoHub);
/// assert_eq!(left, [CycleLeft { members: vec![1, 2], decision }]);
/// # Ok::<(), mutual_recursion::Refusal>(())
/// ```
pub fn cycles(sheet: &[u8], reading: Reading) -> Result<Vec<CycleLeft>, Refusal> {
    let mut work = vec![0; WORK_BYTES];
    let ids = rule_ids(sheet, &mut work)?;
    let rows = find_cycles(sheet, &mut work, reading)?;
    let found = rows.iter().zip(0..);
    let left = found.map(|(row, nth)| CycleLeft {
        members: ids_of(row, &ids),
        decision: decide(sheet, &mut work, reading, nth, &ids),
    });
    Ok(left.collect())
}

/// The members of each cycle.
fn find_cycles(sheet: &[u8], work: &mut [u8], reading: Reading) -> Result<Vec<Row>, Refusal> {
    let mut numbers = [0; 3];
    let mut cycles = [[0; 2]; RULES];
    let facts = Facts {
        numbers: &mut numbers,
        marks: &mut [0; 4],
        calls: &mut [[0; 2]; RULES],
        corners: &mut [[0; 2]; RULES],
        cycles: &mut cycles,
    };
    lent::find_facts(sheet, work, reading.textbook(), facts);
    let [refusal, _, count] = numbers;
    Refusal::none(refusal)?;
    Ok(cycles[..count as usize].to_vec())
}

/// The ids of the rules, in the order of the sheet, with zeros behind them.
fn rule_ids(sheet: &[u8], work: &mut [u8]) -> Result<[u32; RULES], Refusal> {
    let mut numbers = [0; 12];
    let mut ids = [0; RULES];
    lent::read_sheet(
        sheet,
        work,
        &mut numbers,
        &mut ids,
        &mut [0; RULES],
        &mut [0; RULES],
    );
    Refusal::none(numbers[0])?;
    Ok(ids)
}

/// The ids of the rules of a row, rising.
fn ids_of(row: &Row, ids: &[u32; RULES]) -> Vec<u32> {
    let within = (0..RULES).filter(|at| row[at / 64] >> (at % 64) & 1 == 1);
    let mut found: Vec<u32> = within.map(|at| ids[at]).collect();
    found.sort_unstable();
    found
}

/// Of a sheet that is not refused and has the cycle.
fn decide(
    sheet: &[u8],
    work: &mut [u8],
    reading: Reading,
    nth: u32,
    ids: &[u32; RULES],
) -> Decision {
    let mut numbers = [0; 8];
    let mut removable = [0; 2];
    lent::plan_nth(
        sheet,
        work,
        reading.textbook(),
        nth,
        &mut numbers,
        &mut removable,
    );
    let [_, _, which, hub, clause, steps, alternatives, _] = numbers;
    match which {
        0 => Decision::Planned(Plan {
            hub: ids[hub as usize],
            steps,
            alternatives,
            removed: ids_of(&removable, ids),
        }),
        1 => Decision::Declined(Clause::of_number(clause).expect("a clause's number is 1 to 11")),
        _ => Decision::TooLarge,
    }
}
