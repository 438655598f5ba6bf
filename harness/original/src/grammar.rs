//! The original's files, in the module tree that they name.

#![allow(dead_code)]

pub(crate) mod frontend;

#[path = "../upstream/crates/antlr-rust-codegen/src/grammar/action.rs"]
pub(crate) mod action;
#[path = "../upstream/crates/antlr-rust-codegen/src/grammar/transform/analysis.rs"]
pub(crate) mod analysis;
#[path = "../upstream/crates/antlr-rust-codegen/src/grammar/model.rs"]
pub(crate) mod model;
#[path = "../upstream/crates/antlr-rust-codegen/src/grammar/mutual_recursion.rs"]
pub(crate) mod mutual_recursion;
#[path = "../upstream/crates/antlr-rust-codegen/src/grammar/provenance.rs"]
pub(crate) mod provenance;
