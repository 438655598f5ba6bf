//! Other names for the sheets of a run, many of them of one low half, which nothing but their high halves tells apart; and other
//! precedences of their calls.

use std::collections::BTreeMap;

use reader::grow::any_precedence;
use reader::random::Random;
use sheets::codec::{bytes_of, encode, tree};
use sheets::tree::Sheet;
use sheets::walk::{names_in, precedences, rename};

/// The same sheet, where it can be read: three times in four with other names, and every second time with other precedences.
pub fn altered(bytes: Vec<u8>, random: &mut Random) -> Vec<u8> {
    let (others, raised) = (!random.once_in(4), random.once_in(2));
    let Ok(mut sheet) = tree(&bytes) else {
        return bytes;
    };
    if others {
        renamed(&mut sheet, random);
    }
    if raised {
        precedences(&mut sheet, &mut |word| *word = any_precedence(random));
    }
    bytes_of(&encode(&sheet))
}

fn renamed(sheet: &mut Sheet, random: &mut Random) {
    let names = names_in(sheet);
    let others = random.names(names.len());
    let to: BTreeMap<u32, u32> = names.into_iter().zip(others).collect();
    rename(sheet, |name| to[&name]);
}
