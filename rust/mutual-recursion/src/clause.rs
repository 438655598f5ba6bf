//! Why a cycle is declined.

use std::fmt;

/// Why a cycle is declined (SPECIFICATION 10), with a sentence as its text. The rule that takes the others in is the hub, the
/// others are its satellites.
///
/// ```
/// use mutual_recursion::Clause;
///
/// assert_eq!(Clause::NoHub.number(), 1);
/// assert_eq!(
///     Clause::NoHub.to_string(),
///     "no hub: every alternative of every member begins with a call of a member or of a rule that can be empty",
/// );
/// ```
#[derive(Clone, Copy, Debug, PartialEq, Eq, Hash, PartialOrd, Ord)]
pub enum Clause {
    /// No member has an alternative that begins outside the cycle, so that none can take the others in.
    NoHub = 1,
    /// The hub has arguments.
    HubWithArguments,
    /// A satellite has arguments or something else of its own, a labelled alternative, an action or a predicate.
    SatelliteNotInlinable,
    /// The substitution does not end within its steps.
    BeyondBudget,
    /// An action or predicate refers to a rule whose call would be replaced.
    DanglingReference,
    /// A call at the front of an alternative has more on it than its rule's name.
    BlockedCorner,
    /// Two labels of one name would meet in an alternative.
    LabelCollision,
    /// A reference would come to mean another element.
    BindingCollision,
    /// Two values of one option would meet in an alternative.
    OptionCollision,
    /// Nothing of the hub begins with a satellite.
    NoSteps,
    /// What the hub would be is not of the form that direct left recursion needs.
    NotRewritable,
}

impl Clause {
    /// All clauses, in the order of their numbers.
    pub const ALL: [Clause; 11] = [
        Clause::NoHub,
        Clause::HubWithArguments,
        Clause::SatelliteNotInlinable,
        Clause::BeyondBudget,
        Clause::DanglingReference,
        Clause::BlockedCorner,
        Clause::LabelCollision,
        Clause::BindingCollision,
        Clause::OptionCollision,
        Clause::NoSteps,
        Clause::NotRewritable,
    ];

    /// From 1 to 11.
    pub const fn number(self) -> u32 {
        self as u32
    }

    /// The clause of a number from 1 to 11.
    pub fn of_number(number: u32) -> Option<Clause> {
        Clause::ALL
            .into_iter()
            .find(|clause| clause.number() == number)
    }

    const fn text(self) -> &'static str {
        match self {
            Clause::NoHub => {
                "no hub: every alternative of every member begins with a call of a member or of a rule that can be empty"
            }
            Clause::HubWithArguments => {
                "a hub with arguments: the rule that would take the others in has arguments"
            }
            Clause::SatelliteNotInlinable => {
                "a satellite that cannot be inlined: it has arguments or something else of its own, a labelled alternative, or \
                 an action or predicate in it"
            }
            Clause::BeyondBudget => {
                "a step beyond the budget: the substitution does not end within 64 steps, or the square of the number of the \
                 members' alternatives where that is more"
            }
            Clause::DanglingReference => {
                "a dangling reference: an action or predicate beside a call that would be replaced refers to the called rule"
            }
            Clause::BlockedCorner => {
                "a blocked corner: an alternative begins with a call of a member that has a label, arguments, options, or a \
                 quantifier other than one and greedy optional"
            }
            Clause::LabelCollision => {
                "a label collision: the spliced elements and the others have labels of one name"
            }
            Clause::BindingCollision => {
                "a binding collision: of the spliced elements and the others one refers to a name that the other binds"
            }
            Clause::OptionCollision => {
                "an option collision: an option that is spliced in has another value than the first of its name"
            }
            Clause::NoSteps => {
                "no steps: no alternative of the hub begins with a call that would be replaced"
            }
            Clause::NotRewritable => {
                "not directly rewritable: an alternative of the planned list passes arguments to the hub, has nothing but \
                 epsilon, actions and predicates, has nothing behind the hub's call that cannot be empty, or has another left \
                 corner in the cycle"
            }
        }
    }
}

impl fmt::Display for Clause {
    fn fmt(&self, f: &mut fmt::Formatter<'_>) -> fmt::Result {
        f.write_str(self.text())
    }
}
