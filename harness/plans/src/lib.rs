//! What the original's planner decides for each cycle of a sheet as it stands (SPECIFICATION 7 to 10), in the words in
//! which the proved code hands it over, sheets to try it on, and the comparison of the two.

pub mod answer;
pub mod compare;
pub mod grow;
pub mod judge;
pub mod list;
pub mod places;
#[cfg(feature = "proved")]
pub mod proved;
pub mod run;
pub mod tally;
