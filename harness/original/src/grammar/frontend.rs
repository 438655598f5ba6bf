//! Stand-ins for the three types that the model takes from the grammar reader.
//! The pass copies them and looks at none; a carried number rides in `SyntaxId`.

#[derive(Clone, Copy, Debug, Eq, PartialEq)]
pub(crate) struct SourceId;

#[derive(Clone, Debug, Eq, PartialEq)]
pub(crate) struct SourceSpan;

#[derive(Clone, Copy, Debug, Eq, Ord, PartialEq, PartialOrd)]
pub(crate) struct SyntaxId(pub(crate) u32);
