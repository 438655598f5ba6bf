//! A second reader of sheets, sheets to try readers on, the comparison of two readers, and a second account of the conversion.

pub mod clock;
pub mod compare;
pub mod convert;
pub mod damage;
pub mod form;
pub mod grow;
pub mod numbers;
pub mod options;
#[cfg(feature = "proved")]
pub mod proved;
pub mod random;
pub mod read;
pub mod sheets;
pub mod tree;
