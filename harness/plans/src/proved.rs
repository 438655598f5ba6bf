//! The proved planner.

use mutual_recursion::lent;
pub use mutual_recursion::lent::plan_nth as nth;

use crate::compare::{Filled, Planner};

pub const PROVED: Planner = Planner {
    nth: &nth,
    first: &first,
};

pub fn first(sheet: &[u8], work: &mut [u8], textbook: u32, filled: Filled) {
    let Filled {
        numbers,
        cycle,
        removable,
        clauses,
    } = filled;
    lent::first_plan(sheet, work, textbook, numbers, cycle, removable, clauses);
}
