//! What the original makes of a sheet, as a call of the pass must leave it (SPECIFICATION 3 and 4), in both readings of
//! left corners; sheets to try it on, the comparison of the two, and laws that both must keep. Beside it the conversion of old
//! sheets, held to the second account of it.

pub mod built;
pub mod changes;
pub mod compare;
pub mod converted;
pub mod fenced;
pub mod fences;
pub mod folded;
pub mod grow;
pub mod law_run;
pub mod laws;
pub mod old;
pub mod outcome;
pub mod program;
#[cfg(feature = "proved")]
pub mod proved;
pub mod run;
pub mod tally;
