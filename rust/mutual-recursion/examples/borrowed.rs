//! Many sheets with buffers that are made once, and with buffers of the caller's own: nothing is allocated by a call.
//! `cargo run --example borrowed`

use mutual_recursion::{Buffers, RESULT_BYTES, Reading, TRAIL_BYTES, WORK_BYTES, join_in, lent};

/// A parser unit without rules, which comes back as it is, and bytes that are no sheet.
const SHEETS: [[u8; 32]; 2] = [first_byte(2), first_byte(4)];

const fn first_byte(byte: u8) -> [u8; 32] {
    let mut sheet = [0; 32];
    sheet[0] = byte;
    sheet
}

fn main() {
    let mut buffers = Buffers::new();
    for sheet in &SHEETS {
        match join_in(&mut buffers, sheet, Reading::Original) {
            Ok(view) => println!("{} bytes, {} entries", view.sheet.len(), view.trail.len()),
            Err(refusal) => println!("refused by {}: {refusal}", refusal.number()),
        }
    }
    println!("by numbers: {:?}", SHEETS.map(|sheet| numbers(&sheet)));
}

/// The same by the archive's own function, with buffers that stand where the caller likes: here on the stack.
fn numbers(sheet: &[u8]) -> [u32; 5] {
    let (mut result, mut trail) = ([0; RESULT_BYTES], [0; TRAIL_BYTES]);
    let (mut work, mut numbers) = ([0; WORK_BYTES], [0; 5]);
    lent::pass(sheet, &mut result, &mut trail, &mut work, &mut numbers);
    numbers
}

#[test]
fn both_ways_answer_alike() {
    let mut buffers = Buffers::new();
    let view = join_in(&mut buffers, &SHEETS[0], Reading::Original).expect("a sheet");
    assert_eq!(view.sheet, SHEETS[0]);
    assert_eq!(numbers(&SHEETS[0]), [0, 0, 0, 32, 0]);
    let refused = join_in(&mut buffers, &SHEETS[1], Reading::Original);
    assert_eq!(refused.err(), Some(mutual_recursion::Refusal::BadTrailer));
    assert_eq!(numbers(&SHEETS[1]), [3, 0, 0, 0, 0]);
}
