//! A second opinion on what a sheet's rules are (SPECIFICATION 6, 7.5, 14), sheets to try it on,
//! and the comparison with the proved one.

pub mod compare;
pub mod cycles;
pub mod facts;
pub mod flat;
pub mod grow;
pub mod guarded;
#[cfg(feature = "proved")]
pub mod proved;
pub mod run;
pub mod stored;
pub mod wide;
