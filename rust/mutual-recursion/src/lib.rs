//! Mutual left recursion made direct, by the proved pass.
//!
//! A grammar comes as a *sheet*, the bytes that docs/SPECIFICATION.md describes in section 2. [`join`] takes one, joins each
//! left-recursive cycle that can be joined into one rule that calls itself, and hands back the new sheet with the *trail*, which
//! says where each new node came from. [`join_in`] does the same in [`Buffers`] that are made once. A sheet that is refused is
//! answered with a [`Refusal`], which has the cause in words. [`cycles`] lists the cycles of a sheet as it stands, each with its
//! plan or with the [`Clause`] by which it is declined; [`origins`] tells of each alternative of the result whose place it fills
//! and where it was taken from. [`convert()`] makes a sheet of today of one that was written before calls had a precedence. [`lent`]
//! has the archives' functions as they are.
//!
//! What the pass does is proved of the archives that this crate links; here their numbers are only put into types. No function
//! panics, whatever the bytes. The archives are for x86-64 Linux and stand in dist/ of the repository, so that a dependency
//! by way of git needs no prover; [`ARCHIVES`] says what is known of those that are linked.
//!
//! ```
//! use mutual_recursion::{Decision, Reading, cycles, join};
//!
//! // e: a | INT;  a: e PLUS;    with the names e 1, a 2, INT 3, PLUS 4
//! let words = [
//!     1, 1, 0, 2, 10, 0, 0, 0, 1, 20, 0, 3, 0, 0, 0, 2, 0, 0, 11, 0, 0, 0, 1, 21, 0, 4, 0, 0, 0, 3,
//!     2, 2, 0, 1, 12, 0, 0, 0, 2, 22, 0, 3, 0, 0, 0, 1, 0, 0, 23, 0, 4, 0, 0, 0, 4,
//!     2, 55, 0, 13, 24, 0, 0, 0u32,
//! ];
//! let sheet: Vec<u8> = words.iter().flat_map(|word| word.to_le_bytes()).collect();
//!
//! for cycle in cycles(&sheet, Reading::Original)? {
//!     match cycle.decision {
//!         Decision::Planned(plan) => println!("{:?} joined in {}", cycle.members, plan.hub),
//!         Decision::Declined(clause) => println!("{:?} left: {clause}", cycle.members),
//!         Decision::TooLarge => println!("{:?} grows too large", cycle.members),
//!     }
//! }
//! let joined = join(&sheet, Reading::Original)?;
//! assert_eq!(joined.plans, 1);
//! assert!(cycles(&joined.sheet, Reading::Original)?.is_empty());
//! # Ok::<(), mutual_recursion::Refusal>(())
//! ```

#![deny(missing_debug_implementations, unsafe_op_in_unsafe_fn)]
#![warn(missing_docs)]

mod clause;
mod convert;
mod cycles;
mod join;
pub mod lent;
mod origins;
mod provenance;
mod refusal;
mod trail;

pub use clause::Clause;
pub use convert::convert;
pub use cycles::{CycleLeft, Decision, Plan, cycles};
pub use join::{Buffers, Joined, Reading, View, join, join_in};
pub use origins::{Origin, origins};
pub use provenance::{ARCHIVES, Made, Provenance};
pub use refusal::Refusal;
pub use trail::{Entries, Entry, Kind, Reason, Trail};

/// A sheet has at least so many bytes.
pub const SHEET_LEAST_BYTES: usize = 32;

/// A sheet has at most so many bytes.
pub const SHEET_MOST_BYTES: usize = 32_768;

/// A sheet has at most so many rules.
pub const RULES: usize = 128;

/// The result buffer has at least so many bytes.
pub const RESULT_BYTES: usize = 32_768;

/// The trail buffer has at least so many bytes.
pub const TRAIL_BYTES: usize = 65_536;

/// The work area has at least so many bytes.
pub const WORK_BYTES: usize = 65_536;
