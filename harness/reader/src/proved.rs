//! The proved reader.

use mutual_recursion::lent;

/// The next words of a slice as an array.
fn row<'a, const N: usize>(words: &mut &'a mut [u32]) -> &'a mut [u32; N] {
    let (front, rest) = std::mem::take(words)
        .split_first_chunk_mut()
        .expect("room for all numbers");
    *words = rest;
    front
}

/// Reads a sheet; `numbers` has the front and the three rows, one behind the other.
pub fn proved(sheet: &[u8], work: &mut [u8], mut numbers: &mut [u32]) {
    let front = row(&mut numbers);
    let ids = row(&mut numbers);
    let names = row(&mut numbers);
    let places = row(&mut numbers);
    lent::read_sheet(sheet, work, front, ids, names, places);
}
