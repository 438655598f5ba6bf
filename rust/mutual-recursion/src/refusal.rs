//! Why a sheet is refused.

use std::error::Error;
use std::fmt;

/// Why a sheet is refused (SPECIFICATION 4), with the cause in words as its text.
///
/// Of the first six the lowest that holds is given. Then the pass runs, and the first of the others that it meets ends it.
/// A conversion ([`convert`](crate::convert())) gives one of the first six, or else the last.
///
/// ```
/// use mutual_recursion::{Reading, Refusal, join};
///
/// let refusal = join(&[0; 28], Reading::Original).unwrap_err();
/// assert_eq!(refusal, Refusal::BadLength);
/// assert_eq!(refusal.number(), 1);
/// assert_eq!(refusal.to_string(), "the sheet's length is under 32 bytes, over 32,768 or not a multiple of 4");
/// ```
#[derive(Clone, Copy, Debug, PartialEq, Eq, Hash, PartialOrd, Ord)]
pub enum Refusal {
    /// The sheet is too short, too long or not made of whole words.
    BadLength = 1,
    /// A lent buffer is too short. Only by the functions of [`lent`](crate::lent): all others have buffers that are long enough.
    ShortBuffer,
    /// The sheet does not end as a sheet does.
    BadTrailer,
    /// A record of the sheet is not of its form.
    BadRecord,
    /// An id or a rule's name is there twice.
    SharedNumber,
    /// An id is not below its counter, so that it would be given a second time.
    IdPastCounter,
    /// A joined rule would grow too large while it is planned.
    PlanTooLarge,
    /// There are not enough ids left.
    CounterPastEnd,
    /// The new sheet or its trail would be too large.
    ResultTooLarge,
}

impl Refusal {
    /// All refusals, in the order of their numbers.
    pub const ALL: [Refusal; 9] = [
        Refusal::BadLength,
        Refusal::ShortBuffer,
        Refusal::BadTrailer,
        Refusal::BadRecord,
        Refusal::SharedNumber,
        Refusal::IdPastCounter,
        Refusal::PlanTooLarge,
        Refusal::CounterPastEnd,
        Refusal::ResultTooLarge,
    ];

    /// From 1 to 9.
    pub const fn number(self) -> u32 {
        self as u32
    }

    /// The refusal of a number from 1 to 9.
    pub fn of_number(number: u32) -> Option<Refusal> {
        Refusal::ALL
            .into_iter()
            .find(|refusal| refusal.number() == number)
    }

    /// An answer's first number, which is 0 where nothing is refused.
    pub(crate) fn none(number: u32) -> Result<(), Refusal> {
        match number {
            0 => Ok(()),
            _ => Err(Refusal::of_number(number).expect("a refusal's number is 1 to 9")),
        }
    }

    const fn text(self) -> &'static str {
        match self {
            Refusal::BadLength => {
                "the sheet's length is under 32 bytes, over 32,768 or not a multiple of 4"
            }
            Refusal::ShortBuffer => {
                "a lent buffer is too short: the result under 32,768 bytes, the trail or the work area under 65,536"
            }
            Refusal::BadTrailer => {
                "the trailer is bad: a unit kind other than 1, 2 and 3, a first distance that is not the number of words in \
                 front of the trailer, or a second distance above the first"
            }
            Refusal::BadRecord => {
                "a record is bad: cut short or running into the preserved list, a value outside its list, a name 0, a label \
                 id without a label name, blocks over 8 deep, over 128 rules, or preserved ids that do not rise"
            }
            Refusal::SharedNumber => {
                "two rules share an id or a name, or two alternatives, elements, labels, actions or predicates share an id"
            }
            Refusal::IdPastCounter => {
                "an id of an alternative, element, label, action or predicate is not below its counter"
            }
            Refusal::PlanTooLarge => {
                "after a substitution step a planned list has over 1,024 alternatives, 8,192 outermost elements or 2,048 \
                 options of its alternatives"
            }
            Refusal::CounterPastEnd => "applying a plan would take a counter above 4,294,967,295",
            Refusal::ResultTooLarge => {
                "what would be handed back is too large: a sheet over 32,768 bytes or a trail over 4,096 entries"
            }
        }
    }
}

impl fmt::Display for Refusal {
    fn fmt(&self, f: &mut fmt::Formatter<'_>) -> fmt::Result {
        f.write_str(self.text())
    }
}

impl Error for Refusal {}
