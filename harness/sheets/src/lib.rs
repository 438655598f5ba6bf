//! Sheets (SPECIFICATION 2): trees and words, a notation for grammars, a generator.

pub mod blocks;
pub mod codec;
pub mod form;
pub mod generate;
pub mod names;
pub mod parse;
pub mod print;
pub mod rng;
pub mod scan;
pub mod tree;
pub mod walk;
