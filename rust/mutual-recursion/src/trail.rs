//! What was recorded, entry by entry.

use std::fmt;
use std::slice::ChunksExact;

/// What an entry is about; its id and its owner are of this kind.
#[derive(Clone, Copy, Debug, PartialEq, Eq, Hash, PartialOrd, Ord)]
pub enum Kind {
    /// A rule.
    Rule = 1,
    /// An alternative of a rule or of a block.
    Alternative,
    /// An element of an alternative.
    Element,
    /// The label of an element.
    Label,
    /// An action.
    Action,
    /// A predicate.
    Predicate,
}

impl Kind {
    /// All kinds, in the order of their numbers.
    pub const ALL: [Kind; 6] = [
        Kind::Rule,
        Kind::Alternative,
        Kind::Element,
        Kind::Label,
        Kind::Action,
        Kind::Predicate,
    ];

    /// From 1 to 6.
    pub const fn number(self) -> u32 {
        self as u32
    }

    /// The kind of a number from 1 to 6.
    pub fn of_number(number: u32) -> Option<Kind> {
        Kind::ALL.into_iter().find(|kind| kind.number() == number)
    }
}

impl fmt::Display for Kind {
    fn fmt(&self, f: &mut fmt::Formatter<'_>) -> fmt::Result {
        f.write_str(match self {
            Kind::Rule => "rule",
            Kind::Alternative => "alternative",
            Kind::Element => "element",
            Kind::Label => "label",
            Kind::Action => "action",
            Kind::Predicate => "predicate",
        })
    }
}

/// Why it was recorded, by the original's names.
#[derive(Clone, Copy, Debug, PartialEq, Eq, Hash, PartialOrd, Ord)]
pub enum Reason {
    /// Of a new alternative, whose owner is its origin; and of a joined rule, which owns itself.
    RuleBoundary = 1,
    /// Of a copy, whose owner is what was copied.
    BlockBoundary,
}

impl Reason {
    /// Both reasons, in the order of their numbers.
    pub const ALL: [Reason; 2] = [Reason::RuleBoundary, Reason::BlockBoundary];

    /// 1 or 2.
    pub const fn number(self) -> u32 {
        self as u32
    }

    /// The reason of the number 1 or 2.
    pub fn of_number(number: u32) -> Option<Reason> {
        Reason::ALL
            .into_iter()
            .find(|reason| reason.number() == number)
    }
}

/// One entry of the trail (SPECIFICATION 12).
#[derive(Clone, Copy, Debug, PartialEq, Eq, Hash)]
pub struct Entry {
    /// What it is about.
    pub kind: Kind,
    /// The id of the new node.
    pub id: u32,
    /// Why it was recorded.
    pub reason: Reason,
    /// The id of the node that it came from.
    pub owner: u32,
}

impl Entry {
    /// An entry has so many bytes in a trail.
    pub const BYTES: usize = 16;

    /// Kind, id, reason, owner, each with its low byte first.
    pub fn to_bytes(self) -> [u8; Entry::BYTES] {
        let words = [
            self.kind.number(),
            self.id,
            self.reason.number(),
            self.owner,
        ];
        let mut bytes = [0; Entry::BYTES];
        for (room, word) in bytes.chunks_exact_mut(4).zip(words) {
            room.copy_from_slice(&word.to_le_bytes());
        }
        bytes
    }

    /// None where the kind or the reason has no meaning.
    pub fn of_bytes(bytes: [u8; Entry::BYTES]) -> Option<Entry> {
        let word = |at: usize| {
            u32::from_le_bytes([bytes[at], bytes[at + 1], bytes[at + 2], bytes[at + 3]])
        };
        Some(Entry {
            kind: Kind::of_number(word(0))?,
            id: word(4),
            reason: Reason::of_number(word(8))?,
            owner: word(12),
        })
    }
}

/// The trail in a lent buffer; its entries are read as they are asked for.
#[derive(Clone, Copy, Debug, PartialEq, Eq)]
pub struct Trail<'a> {
    bytes: &'a [u8],
}

impl<'a> Trail<'a> {
    /// Of bytes that a call has written.
    pub(crate) fn new(bytes: &'a [u8]) -> Trail<'a> {
        Trail { bytes }
    }

    /// As the pass wrote it.
    pub fn bytes(self) -> &'a [u8] {
        self.bytes
    }

    /// How many entries there are.
    pub fn len(self) -> usize {
        self.bytes.len() / Entry::BYTES
    }

    /// Whether nothing was recorded, as where nothing is joined.
    pub fn is_empty(self) -> bool {
        self.bytes.is_empty()
    }

    /// The entries, in the order of recording.
    pub fn iter(self) -> Entries<'a> {
        Entries {
            rest: self.bytes.chunks_exact(Entry::BYTES),
        }
    }
}

impl<'a> IntoIterator for Trail<'a> {
    type Item = Entry;
    type IntoIter = Entries<'a>;

    fn into_iter(self) -> Entries<'a> {
        self.iter()
    }
}

/// The entries of a [`Trail`], in the order of recording.
#[derive(Clone, Debug)]
pub struct Entries<'a> {
    rest: ChunksExact<'a, u8>,
}

impl Iterator for Entries<'_> {
    type Item = Entry;

    fn next(&mut self) -> Option<Entry> {
        let bytes = self
            .rest
            .next()?
            .try_into()
            .expect("chunks have the size of an entry");
        Some(Entry::of_bytes(bytes).expect("the pass writes kinds 1 to 6 and reasons 1 and 2"))
    }

    fn size_hint(&self) -> (usize, Option<usize>) {
        self.rest.size_hint()
    }
}

impl ExactSizeIterator for Entries<'_> {}
