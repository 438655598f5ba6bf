//! Stand-in for petgraph: a directed graph and its strongly connected sets.
//!
//! The original sorts the members of every component and the list of
//! components, so only the partition into components can reach an answer,
//! and that is a property of the graph alone.

pub mod algo;
pub mod graph;
