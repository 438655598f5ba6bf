//! What is known of the archives that are linked.

use std::fmt;

/// What the archives that this crate links were made of, by which kit, and where they were proved. Its text is a sentence for
/// those who read what a program prints.
///
/// ```
/// use mutual_recursion::ARCHIVES;
///
/// println!("the pass was {ARCHIVES}");
/// ```
#[derive(Clone, Copy, Debug, PartialEq, Eq)]
pub struct Provenance {
    /// How they came here.
    pub made: Made,
    /// The kit that proved and built them, by its own name for itself; `unknown` where that is so.
    pub kit: &'static str,
    /// The digest of the proved crates, as `tools/archives --sources` prints it; `unknown` where that is so.
    pub sources: &'static str,
}

/// How archives came to be where they are.
#[derive(Clone, Copy, Debug, PartialEq, Eq)]
pub enum Made {
    /// They were proved and built in this checkout.
    Here,
    /// They are those of dist/, which the project's gate holds to what it proves.
    Shipped,
    /// They are those of a folder that says nothing about them.
    Elsewhere,
}

/// Those that this crate was built with.
pub const ARCHIVES: Provenance = Provenance {
    made: match env!("ARCHIVES_MADE").as_bytes() {
        b"here" => Made::Here,
        b"dist" => Made::Shipped,
        _ => Made::Elsewhere,
    },
    kit: env!("ARCHIVES_KIT"),
    sources: env!("ARCHIVES_SOURCES"),
};

impl fmt::Display for Provenance {
    fn fmt(&self, f: &mut fmt::Formatter<'_>) -> fmt::Result {
        let kit = self.kit;
        match self.made {
            Made::Here => write!(f, "proved here with {kit}"),
            Made::Shipped => write!(
                f,
                "built from these sources by {kit}, proved by the gate; not proved on this machine"
            ),
            Made::Elsewhere => write!(
                f,
                "linked from archives of which nothing is known; kit {kit}"
            ),
        }
    }
}
