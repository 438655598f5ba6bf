//! The form with a third word of each call, and case 1 with and without it.

use crate::common::{alternative, element, rule, sheet};
use reader::form::Form;

pub const THIRD: Form = Form { precedences: true };

/// `e: a | INT; a: e PLUS e;` (SPECIFICATION 15.20); `third` stands behind the words of each call.
pub fn case_1(third: &[u32]) -> Vec<u8> {
    let call = |id: u32, name: u32| element(id, 3, &[&[name, 0], third].concat());
    let e = [
        alternative(10, &[call(20, 2)]),
        alternative(11, &[element(21, 4, &[3])]),
    ];
    let a = [call(22, 1), element(23, 4, &[4]), call(24, 1)];
    let rules = [rule(1, 1, &e), rule(2, 2, &[alternative(12, &a)])];
    sheet(&rules, &[], [13, 25, 0, 0, 0])
}
