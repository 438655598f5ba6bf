//! Reads a sheet on standard input with the proved reader and prints its line.

use reader::numbers::{NUMBERS, line_of};
use reader::proved::proved;
use std::io::Read;

/// What the reader is lent.
const WORK: usize = 65_536;

fn main() -> std::io::Result<()> {
    let mut sheet = Vec::new();
    std::io::stdin().read_to_end(&mut sheet)?;
    let mut numbers = [0; NUMBERS];
    proved(&sheet, &mut vec![0; WORK], &mut numbers);
    println!("{}", line_of(&numbers));
    Ok(())
}
