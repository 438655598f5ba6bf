//! The answers of the proved code's two functions, as the original's decisions have them.

use analysis::facts::{RULES, Row, row};
use traced::{Decision, Plan};

use crate::judge::Judged;
use crate::list::List;

/// numbers[2] of an answer.
const PLANNED: u32 = 0;
const DECLINED: u32 = 1;
const OVERFULL: u32 = 2;
const NONE: u32 = 3;

/// What is handed back; `cycle` and `clauses` by `first_plan` alone.
#[derive(Clone, Debug, PartialEq, Eq)]
pub struct Answer {
    pub numbers: [u32; 8],
    pub cycle: Row,
    pub removable: Row,
    pub clauses: [u32; RULES],
    /// What stands in the work area.
    pub list: Option<List>,
}

impl Answer {
    /// All zeros but for the first four numbers.
    fn bare(refusal: u32, cycles: usize, what: u32) -> Answer {
        Answer {
            numbers: [refusal, cycles as u32, what, 0, 0, 0, 0, 0],
            cycle: [0; 2],
            removable: [0; 2],
            clauses: [0; RULES],
            list: None,
        }
    }

    pub fn refused(number: u32) -> Answer {
        Answer::bare(number, 0, 0)
    }

    /// Of `plan_nth`.
    pub fn nth(judged: &Judged, nth: u32) -> Answer {
        let bare = |what| Answer::bare(0, judged.cycles.len(), what);
        match judged.cycles.get(nth as usize) {
            None => bare(NONE),
            Some((_, Decision::Overfull(_))) => bare(OVERFULL),
            Some((_, Decision::Declined(clause))) => {
                let mut answer = bare(DECLINED);
                answer.numbers[4] = *clause;
                answer
            }
            Some((_, Decision::Planned(plan))) => bare(PLANNED).with(plan, judged),
        }
    }

    /// Of `first_plan`.
    pub fn first(judged: &Judged) -> Answer {
        let clause = |(_, decision): &(_, Decision)| match decision {
            Decision::Declined(clause) => Some(*clause),
            _ => None,
        };
        let declined: Vec<u32> = judged.cycles.iter().map_while(clause).collect();
        let bare = |what| Answer::bare(0, declined.len(), what);
        let mut answer = match judged.cycles.get(declined.len()) {
            Some((cycle, Decision::Planned(plan))) => {
                let mut answer = bare(PLANNED).with(plan, judged);
                answer.cycle = *cycle;
                answer
            }
            Some(_) => bare(OVERFULL),
            None => bare(NONE),
        };
        answer.clauses[..declined.len()].copy_from_slice(&declined);
        answer
    }

    fn with(mut self, plan: &Plan, judged: &Judged) -> Answer {
        let places = &judged.places;
        self.numbers[3] = places.rules[&plan.hub] as u32;
        self.numbers[5] = plan.steps as u32;
        self.numbers[6] = plan.alternatives.len() as u32;
        self.removable = row(plan.removable.iter().map(|id| places.rules[id]));
        self.list = Some(List::of(&plan.alternatives, places));
        self
    }
}
