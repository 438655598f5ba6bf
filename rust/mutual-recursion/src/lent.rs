//! The functions of the archives as they are: the caller lends every buffer, and is answered in numbers. This is for those who
//! want to lend buffers of their own; [`join`](crate::join), [`join_in`](crate::join_in) and [`cycles`](crate::cycles) say the
//! same in types.
//!
//! All of them take slices of any length with anything in them. A buffer that is too short is refused by number 2.

mod archives;

/// A set of rules: bit `j % 64` of word `j / 64` is the j-th rule of the sheet, counted from 0.
pub type Row = [u64; 2];

/// A row for each rule, or for each cycle; zeros behind the last one.
pub type Rows = [Row; 128];

/// The pass, in the original's reading of left corners. The numbers are the refusal or 0, plans, steps, and the lengths of the
/// result and of the trail in bytes.
///
/// Refusals 1 and 2 leave all buffers as they were, every other one leaves zeros in them. Where nothing is refused the result
/// and the trail have zeros behind their lengths, and the work area has zeros everywhere.
pub fn pass(
    sheet: &[u8],
    result: &mut [u8],
    trail: &mut [u8],
    work: &mut [u8],
    numbers: &mut [u32; 5],
) {
    // SAFETY: the function is proved for all slices, which cross as pointer and length, and for memory that does not overlap:
    // what is lent by `&mut` does not. So it is in all functions here.
    unsafe {
        archives::pass(
            sheet.as_ptr(),
            sheet.len(),
            result.as_mut_ptr(),
            result.len(),
            trail.as_mut_ptr(),
            trail.len(),
            work.as_mut_ptr(),
            work.len(),
            numbers,
        );
    }
}

/// As [`pass`], in the textbook's reading of left corners.
pub fn pass_textbook(
    sheet: &[u8],
    result: &mut [u8],
    trail: &mut [u8],
    work: &mut [u8],
    numbers: &mut [u32; 5],
) {
    // SAFETY: as in `pass`.
    unsafe {
        archives::pass_textbook(
            sheet.as_ptr(),
            sheet.len(),
            result.as_mut_ptr(),
            result.len(),
            trail.as_mut_ptr(),
            trail.len(),
            work.as_mut_ptr(),
            work.len(),
            numbers,
        );
    }
}

/// The decision for the nth cycle of a sheet as it stands, from 0 on, in the original's reading where `textbook` is 0.
///
/// The numbers are the refusal or 0; how many cycles there are; 0 where there is a plan, 1 where the cycle is declined, 2 where
/// a planned list is too large, 3 where there is no such cycle; the hub's place among the rules; the clause of the decline; the
/// plan's steps and alternatives; 0. The row has the rules that may go. The list of a plan is left in the work area; without a
/// plan this ends as that of [`pass`].
pub fn plan_nth(
    sheet: &[u8],
    work: &mut [u8],
    textbook: u32,
    nth: u32,
    numbers: &mut [u32; 8],
    removable: &mut Row,
) {
    // SAFETY: as in `pass`.
    unsafe {
        archives::plan_nth(
            sheet.as_ptr(),
            sheet.len(),
            work.as_mut_ptr(),
            work.len(),
            textbook,
            nth,
            numbers,
            removable,
        );
    }
}

/// The first cycle of a sheet that has a plan: numbers as of [`plan_nth`], but that the second one counts the cycles in front
/// that were declined, of which `clauses` has the clauses; and the members of that cycle.
pub fn first_plan(
    sheet: &[u8],
    work: &mut [u8],
    textbook: u32,
    numbers: &mut [u32; 8],
    cycle: &mut Row,
    removable: &mut Row,
    clauses: &mut [u32; 128],
) {
    // SAFETY: as in `pass`.
    unsafe {
        archives::first_plan(
            sheet.as_ptr(),
            sheet.len(),
            work.as_mut_ptr(),
            work.len(),
            textbook,
            numbers,
            cycle,
            removable,
            clauses,
        );
    }
}

/// What [`find_facts`] fills.
#[derive(Debug)]
pub struct Facts<'a> {
    /// The refusal or 0, how many rules there are, how many cycles.
    pub numbers: &'a mut [u32; 3],
    /// The row of the nullable rules, then that of the rules that cannot be inlined.
    pub marks: &'a mut [u64; 4],
    /// Of each rule those that it calls.
    pub calls: &'a mut Rows,
    /// Of each rule its left corners.
    pub corners: &'a mut Rows,
    /// Of each cycle its members.
    pub cycles: &'a mut Rows,
}

/// What is found out about the rules of a sheet, in the original's reading where `textbook` is 0. Nothing stays of what the
/// facts held before.
pub fn find_facts(sheet: &[u8], work: &mut [u8], textbook: u32, facts: Facts) {
    // SAFETY: as in `pass`.
    unsafe {
        archives::find_facts(
            sheet.as_ptr(),
            sheet.len(),
            work.as_mut_ptr(),
            work.len(),
            textbook,
            facts.numbers,
            facts.marks,
            facts.calls,
            facts.corners,
            facts.cycles,
        );
    }
}

/// What a sheet holds. The numbers are the refusal or 0; unit kind, place in words and length of the preserved list, the five
/// counters; how many rules, alternatives and elements there are. Of each rule its id, its name and its place in words.
pub fn read_sheet(
    sheet: &[u8],
    work: &mut [u8],
    numbers: &mut [u32; 12],
    ids: &mut [u32; 128],
    names: &mut [u32; 128],
    places: &mut [u32; 128],
) {
    // SAFETY: as in `pass`.
    unsafe {
        archives::read_sheet(
            sheet.as_ptr(),
            sheet.len(),
            work.as_mut_ptr(),
            work.len(),
            numbers,
            ids,
            names,
            places,
        );
    }
}

/// Makes a sheet of today of an old one, as [`convert`](crate::convert()) says. The numbers are the refusal or 0, and the length
/// of the new sheet in bytes.
///
/// Refusals 1 and 2 leave both buffers as they were, every other one leaves zeros in them. Where nothing is refused the result
/// has zeros behind its length, and the work area has zeros everywhere.
pub fn convert(sheet: &[u8], result: &mut [u8], work: &mut [u8], numbers: &mut [u32; 2]) {
    // SAFETY: as in `pass`.
    unsafe {
        archives::convert(
            sheet.as_ptr(),
            sheet.len(),
            result.as_mut_ptr(),
            result.len(),
            work.as_mut_ptr(),
            work.len(),
            numbers,
        );
    }
}
