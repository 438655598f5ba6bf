//! Reads a sheet on standard input with the second reader and prints its line.

use std::io::Read;

fn main() -> std::io::Result<()> {
    let mut sheet = Vec::new();
    std::io::stdin().read_to_end(&mut sheet)?;
    println!("{}", reader::numbers::line(&reader::read::read(&sheet)));
    Ok(())
}
