//! Where the alternatives of a result came from.

use std::collections::HashMap;

use crate::join::{Reading, join};
use crate::lent;
use crate::refusal::Refusal;
use crate::trail::{Kind, Reason};
use crate::{RULES, WORK_BYTES};

/// An alternative of a rule of the result, and where it came from. All but the first are ids of alternatives.
#[derive(Clone, Copy, Debug, PartialEq, Eq, Hash)]
pub struct Origin {
    /// The id of the rule that it stands in.
    pub rule: u32,
    /// Its own id.
    pub alternative: u32,
    /// The alternative handed in whose place it fills; itself where it was not touched. One that fills a place in front of
    /// another's is in front of it in the result too.
    pub slot: u32,
    /// The alternative handed in from which it was taken; none where it was not touched.
    pub origin: Option<u32>,
}

/// Of each alternative of the rules that [`join`] hands back, rule by rule and in their order, where it came from.
///
/// ```
/// use mutual_recursion::{Origin, Reading, origins};
///
/// // e: a | INT;  a: e PLUS e;    with the names e 1, a 2, INT 3, PLUS 4
/// let words: [u32; 72] = [
///     1, 1, 0, 2, 10, 0, 0, 0, 1, 20, 0, 3, 0, 0, 0, 2, 0, 0, 11, 0, 0, 0, 1, 21, 0, 4, 0, 0, 0, 3,
///     2, 2, 0, 1, 12, 0, 0, 0, 3, 22, 0, 3, 0, 0, 0, 1, 0, 0, 23, 0, 4, 0, 0, 0, 4, 24, 0, 3, 0, 0, 0, 1, 0, 0,
///     2, 64, 0, 13, 25, 0, 0, 0,
/// ];
/// let sheet: Vec<u8> = words.iter().flat_map(|word| word.to_le_bytes()).collect();
///
/// let found = origins(&sheet, Reading::Original)?;
/// // e PLUS e is new: it stands in place of the call of a, and comes from there; INT is as it was
/// assert_eq!(found[0], Origin { rule: 1, alternative: 13, slot: 10, origin: Some(12) });
/// assert_eq!(found[1], Origin { rule: 1, alternative: 11, slot: 11, origin: None });
/// # Ok::<(), mutual_recursion::Refusal>(())
/// ```
pub fn origins(sheet: &[u8], reading: Reading) -> Result<Vec<Origin>, Refusal> {
    let joined = join(sheet, reading)?;
    let taken = joined
        .trail
        .iter()
        .filter(|entry| (entry.kind, entry.reason) == (Kind::Alternative, Reason::RuleBoundary));
    let taken: HashMap<u32, u32> = taken.map(|entry| (entry.id, entry.owner)).collect();
    // A new alternative has the carried number of its slot, and carried numbers are compared with nothing (SPECIFICATION 11.3,
    // 2.16): with the ids in their place the pass tells the slots.
    let mut marked = sheet.to_vec();
    for found in alternatives(sheet)? {
        put(&mut marked, found.place + 1, found.id);
    }
    let marked = join(&marked, reading)?.sheet;
    let found = alternatives(&marked)?.into_iter().map(|found| Origin {
        rule: found.rule,
        alternative: found.id,
        slot: word(&marked, found.place + 1),
        origin: taken
            .contains_key(&found.id)
            .then(|| first(&taken, found.id)),
    });
    Ok(found.collect())
}

/// What was taken may be new itself, of an earlier plan.
fn first(taken: &HashMap<u32, u32>, mut id: u32) -> u32 {
    while let Some(owner) = taken.get(&id) {
        id = *owner;
    }
    id
}

/// An outermost alternative: its rule's id, its own, and its place in words.
struct Found {
    rule: u32,
    id: u32,
    place: usize,
}

/// The outermost alternatives of a sheet, as the proved reader finds its rules.
fn alternatives(sheet: &[u8]) -> Result<Vec<Found>, Refusal> {
    let (mut numbers, mut ids, mut places) = ([0; 12], [0; RULES], [0; RULES]);
    let mut work = vec![0; WORK_BYTES];
    let names = &mut [0; RULES];
    lent::read_sheet(sheet, &mut work, &mut numbers, &mut ids, names, &mut places);
    Refusal::none(numbers[0])?;
    let mut found = Vec::new();
    let rules = ids.into_iter().zip(places).take(numbers[9] as usize);
    for (rule, start) in rules {
        let mut place = start as usize + 4;
        for _ in 0..word(sheet, start as usize + 3) {
            let id = word(sheet, place);
            found.push(Found { rule, id, place });
            place = past_alternative(sheet, place);
        }
    }
    Ok(found)
}

fn word(sheet: &[u8], at: usize) -> u32 {
    let bytes = sheet[4 * at..4 * at + 4].try_into();
    u32::from_le_bytes(bytes.expect("four bytes"))
}

fn put(sheet: &mut [u8], at: usize, value: u32) {
    sheet[4 * at..4 * at + 4].copy_from_slice(&value.to_le_bytes());
}

/// Where what follows an alternative begins (SPECIFICATION 2.7).
fn past_alternative(sheet: &[u8], at: usize) -> usize {
    let elements = word(sheet, at + 4);
    let first = at + 5 + 2 * word(sheet, at + 3) as usize;
    (0..elements).fold(first, |place, _| past_element(sheet, place))
}

/// Where what follows an element begins (SPECIFICATION 2.7, 2.11).
fn past_element(sheet: &[u8], at: usize) -> usize {
    let payload = at + 6 + 2 * word(sheet, at + 5) as usize;
    match word(sheet, at + 2) % 256 {
        1 | 2 => payload + 2 + 2 * word(sheet, payload + 1) as usize,
        3 => payload + 3,
        4 => payload + 1,
        6 => (0..word(sheet, payload)).fold(payload + 1, |place, _| past_alternative(sheet, place)),
        _ => payload,
    }
}
