//! The archives' functions as the linker finds them; a slice crosses as pointer and length.

use super::{Row, Rows};

unsafe extern "C" {
    pub fn pass(
        sheet: *const u8,
        sheet_len: usize,
        result: *mut u8,
        result_len: usize,
        trail: *mut u8,
        trail_len: usize,
        work: *mut u8,
        work_len: usize,
        numbers: *mut [u32; 5],
    );

    pub fn pass_textbook(
        sheet: *const u8,
        sheet_len: usize,
        result: *mut u8,
        result_len: usize,
        trail: *mut u8,
        trail_len: usize,
        work: *mut u8,
        work_len: usize,
        numbers: *mut [u32; 5],
    );

    pub fn plan_nth(
        sheet: *const u8,
        sheet_len: usize,
        work: *mut u8,
        work_len: usize,
        textbook: u32,
        nth: u32,
        numbers: *mut [u32; 8],
        removable: *mut Row,
    );

    pub fn first_plan(
        sheet: *const u8,
        sheet_len: usize,
        work: *mut u8,
        work_len: usize,
        textbook: u32,
        numbers: *mut [u32; 8],
        cycle: *mut Row,
        removable: *mut Row,
        clauses: *mut [u32; 128],
    );

    pub fn find_facts(
        sheet: *const u8,
        sheet_len: usize,
        work: *mut u8,
        work_len: usize,
        textbook: u32,
        numbers: *mut [u32; 3],
        marks: *mut [u64; 4],
        calls: *mut Rows,
        corners: *mut Rows,
        cycles: *mut Rows,
    );

    pub fn read_sheet(
        sheet: *const u8,
        sheet_len: usize,
        work: *mut u8,
        work_len: usize,
        numbers: *mut [u32; 12],
        ids: *mut [u32; 128],
        names: *mut [u32; 128],
        places: *mut [u32; 128],
    );

    pub fn convert(
        sheet: *const u8,
        sheet_len: usize,
        result: *mut u8,
        result_len: usize,
        work: *mut u8,
        work_len: usize,
        numbers: *mut [u32; 2],
    );
}
