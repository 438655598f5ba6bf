//! The proved finder of facts.

use mutual_recursion::lent::{self, Facts};

use crate::compare::Outputs;

pub fn proved(sheet: &[u8], work: &mut [u8], textbook: u32, outputs: Outputs) {
    let facts = Facts {
        numbers: outputs.numbers,
        marks: outputs.marks,
        calls: outputs.calls,
        corners: outputs.corners,
        cycles: outputs.cycles,
    };
    lent::find_facts(sheet, work, textbook, facts);
}
