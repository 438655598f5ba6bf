//! The pass, owned and borrowed.

use crate::lent;
use crate::refusal::Refusal;
use crate::trail::{Entry, Trail};
use crate::{RESULT_BYTES, TRAIL_BYTES, WORK_BYTES};

/// Which left corners there are (SPECIFICATION 14).
#[derive(Clone, Copy, Debug, Default, PartialEq, Eq, Hash)]
pub enum Reading {
    /// The original's, which end at every symbol.
    #[default]
    Original,
    /// The textbook's, which go past a symbol that can be empty.
    Textbook,
}

impl Reading {
    /// For the functions that take the reading as a number.
    pub(crate) const fn textbook(self) -> u32 {
        matches!(self, Reading::Textbook) as u32
    }
}

/// What the pass makes of a sheet.
#[derive(Clone, Debug, PartialEq, Eq)]
pub struct Joined {
    /// The new sheet.
    pub sheet: Vec<u8>,
    /// Where each new node came from.
    pub trail: Vec<Entry>,
    /// How many plans were applied, each of which joins a cycle.
    pub plans: u32,
    /// The substitution steps of these plans together.
    pub steps: u32,
}

impl Joined {
    /// The trail as the pass writes it.
    pub fn trail_bytes(&self) -> Vec<u8> {
        self.trail
            .iter()
            .flat_map(|entry| entry.to_bytes())
            .collect()
    }
}

/// The same as [`Joined`], in the buffers that were lent for it.
#[derive(Clone, Copy, Debug, PartialEq, Eq)]
pub struct View<'a> {
    /// The new sheet.
    pub sheet: &'a [u8],
    /// Where each new node came from.
    pub trail: Trail<'a>,
    /// How many plans were applied, each of which joins a cycle.
    pub plans: u32,
    /// The substitution steps of these plans together.
    pub steps: u32,
}

impl View<'_> {
    /// A copy that is owned.
    pub fn to_joined(self) -> Joined {
        Joined {
            sheet: self.sheet.to_vec(),
            trail: self.trail.iter().collect(),
            plans: self.plans,
            steps: self.steps,
        }
    }
}

/// The buffers of a call, made once for any number of calls.
#[derive(Clone, Debug)]
pub struct Buffers {
    result: Box<[u8]>,
    trail: Box<[u8]>,
    work: Box<[u8]>,
}

impl Buffers {
    /// Buffers of the lengths that the pass asks for: 160 KB together.
    pub fn new() -> Buffers {
        let zeros = |length| vec![0; length].into_boxed_slice();
        Buffers {
            result: zeros(RESULT_BYTES),
            trail: zeros(TRAIL_BYTES),
            work: zeros(WORK_BYTES),
        }
    }
}

impl Default for Buffers {
    fn default() -> Buffers {
        Buffers::new()
    }
}

/// Joins the left-recursive cycles of a sheet.
///
/// ```
/// use mutual_recursion::{Entry, Kind, Reading, Reason, join};
///
/// // e: a | INT;  a: e PLUS e;    with the names e 1, a 2, INT 3, PLUS 4
/// let words: [u32; 72] = [
///     1, 1, 0, 2, // rule 1 of name 1, with two alternatives
///     10, 0, 0, 0, 1, 20, 0, 3, 0, 0, 0, 2, 0, 0, // alternative 10: the call of a
///     11, 0, 0, 0, 1, 21, 0, 4, 0, 0, 0, 3, // alternative 11: the token INT
///     2, 2, 0, 1, // rule 2 of name 2, with one
///     12, 0, 0, 0, 3, 22, 0, 3, 0, 0, 0, 1, 0, 0, 23, 0, 4, 0, 0, 0, 4, 24, 0, 3, 0, 0, 0, 1, 0, 0,
///     2, 64, 0, 13, 25, 0, 0, 0, // a parser unit, and the next free ids
/// ];
/// let sheet: Vec<u8> = words.iter().flat_map(|word| word.to_le_bytes()).collect();
///
/// let joined = join(&sheet, Reading::Original)?;
/// assert_eq!((joined.plans, joined.steps), (1, 1));
/// // one rule is left, e: e PLUS e | INT;
/// assert_eq!(joined.sheet[..4], [1, 0, 0, 0]);
/// assert!(joined.sheet.len() < sheet.len());
/// // its first alternative is new, and comes from alternative 12
/// let first = Entry { kind: Kind::Alternative, id: 13, reason: Reason::RuleBoundary, owner: 12 };
/// assert_eq!(joined.trail[0], first);
/// # Ok::<(), mutual_recursion::Refusal>(())
/// ```
pub fn join(sheet: &[u8], reading: Reading) -> Result<Joined, Refusal> {
    join_in(&mut Buffers::new(), sheet, reading).map(View::to_joined)
}

/// As [`join`], without an allocation.
///
/// ```
/// use mutual_recursion::{Buffers, Reading, Refusal, join_in};
///
/// let mut buffers = Buffers::new();
/// // a parser unit without rules comes back as it is
/// let mut sheet = [0; 32];
/// sheet[0] = 2;
/// let view = join_in(&mut buffers, &sheet, Reading::Textbook)?;
/// assert_eq!(view.sheet, sheet);
/// assert!(view.trail.is_empty());
///
/// sheet[0] = 4;
/// assert_eq!(join_in(&mut buffers, &sheet, Reading::Textbook), Err(Refusal::BadTrailer));
/// # Ok::<(), Refusal>(())
/// ```
pub fn join_in<'a>(
    buffers: &'a mut Buffers,
    sheet: &[u8],
    reading: Reading,
) -> Result<View<'a>, Refusal> {
    let mut numbers = [0; 5];
    let call = match reading {
        Reading::Original => lent::pass,
        Reading::Textbook => lent::pass_textbook,
    };
    call(
        sheet,
        &mut buffers.result,
        &mut buffers.trail,
        &mut buffers.work,
        &mut numbers,
    );
    let [refusal, plans, steps, result, trail] = numbers;
    Refusal::none(refusal)?;
    Ok(View {
        sheet: &buffers.result[..result as usize],
        trail: Trail::new(&buffers.trail[..trail as usize]),
        plans,
        steps,
    })
}
