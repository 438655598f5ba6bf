//! Few symbols: the same grammar with an alphabet small enough to enumerate.

use super::draft::{TOKENS, UNKNOWN};
use crate::blocks::has_end_of_input;
use crate::tree::{Kind, Sheet};
use crate::walk;

/// At most three symbols are left: two tokens, and all unknown calls and
/// elements of kind 5 as one symbol; where the end of input is there, its mark
/// in place of one of the tokens.
pub fn fold_symbols(sheet: &mut Sheet, third_is_call: bool) {
    let tokens = if has_end_of_input(sheet) { 1 } else { 2 };
    let rules: Vec<u32> = sheet.rules.iter().map(|rule| rule.name).collect();
    let third = if third_is_call {
        Kind::Call {
            name: UNKNOWN,
            arguments: 0,
            precedence: 0,
        }
    } else {
        Kind::Other
    };
    for rule in &mut sheet.rules {
        walk::edit(
            &mut rule.alternatives,
            &mut |element| match &mut element.kind {
                Kind::Token(name) => *name = TOKENS + *name % tokens,
                Kind::Call { name, .. } if rules.contains(name) => {}
                Kind::Call { .. } | Kind::Other => {
                    element.kind = third.clone();
                    element.carried = 1;
                }
                _ => {}
            },
        );
    }
}
