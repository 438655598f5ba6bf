//! The forms that a sheet has had: the same trees, in other words.

/// What a form has a place for: a third word of each call, its precedence.
#[derive(Clone, Copy, Debug, Eq, PartialEq)]
pub struct Form {
    pub precedences: bool,
}

impl Form {
    pub const FIRST: Form = Form { precedences: false };

    /// The form of every sheet that is handed in or out today.
    pub const NEWEST: Form = Form { precedences: true };

    /// How many words a call's payload has.
    pub const fn call_words(self) -> usize {
        if self.precedences { 3 } else { 2 }
    }
}
