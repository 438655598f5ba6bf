//! The proved pass, and the proved conversion of old sheets.

use mutual_recursion::lent;

use crate::compare::{Buffers, Pass};

/// The entries for the original's reading and for the textbook's.
pub const PROVED: [Pass; 2] = [&rust, &textbook];

pub fn rust(sheet: &[u8], buffers: Buffers, numbers: &mut [u32; 5]) {
    let [result, trail, work] = buffers;
    lent::pass(sheet, result, trail, work, numbers);
}

pub fn textbook(sheet: &[u8], buffers: Buffers, numbers: &mut [u32; 5]) {
    let [result, trail, work] = buffers;
    lent::pass_textbook(sheet, result, trail, work, numbers);
}

pub fn convert(old: &[u8], result: &mut [u8], work: &mut [u8], numbers: &mut [u32; 2]) {
    lent::convert(old, result, work, numbers);
}
