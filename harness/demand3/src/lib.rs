//! Each clause of demand 3, and what else is claimed of every run, checked on an
//! answer of the original by enumeration and by definitions of its own.

pub mod corners;
pub mod grammars;
pub mod readings;
pub mod strings;

use std::collections::{BTreeMap, BTreeSet};

use corners::{Grammar, Reading};
use oracle::{Done, ask_sheet};
use readings::{Census, Numbers, Table};
use sheets::blocks::ends_in_blocks;
use sheets::codec;
use sheets::tree::{Alternative, Kind, Rule, Sheet};
use sheets::walk;
use strings::{Languages, Symbol};

/// A sentence that does not hold of an answer.
#[derive(Clone, Copy, Debug, Eq, Ord, PartialEq, PartialOrd)]
pub enum Fault {
    /// A kept rule derives other strings than before.
    Strings,
    /// A kept rule has another number of derivation trees for a string than before.
    Readings,
    /// A rule of the result calls a removed one.
    Closed,
    /// An alternative of a joined rule is of neither sort.
    Shape(Reading),
    /// A joined rule has alternatives of one sort alone.
    BothSorts(Reading),
    /// A joined rule that cannot be empty stands in a later cycle.
    LaterCycle(Reading),
    /// A joined and kept rule is not as its last plan left it.
    LeftAsPlanned,
    /// A rule is the hub of two plans, or plans outnumber rules.
    Plans,
    /// A rule reaches after a plan what it did not reach before.
    ReachGrew(Reading),
    /// The original's nullable rules are not those that derive a string of end marks alone.
    Nullable,
    /// The cycles that the original found last are not the strongly connected sets.
    Cycles,
    /// The result is no sheet that the reader takes and finds again.
    Valid,
    /// The pass on its own result makes a plan, or changes a word.
    Again,
    /// An origin list is not what the trail gives.
    Origins,
    /// An entry of the trail is of a node that the result has not.
    TrailOfResult,
}

impl Fault {
    /// Whether it is a fault by the textbook's left corners alone.
    pub fn is_by_textbook_corners(self) -> bool {
        matches!(
            self,
            Fault::Shape(Reading::Textbook)
                | Fault::BothSorts(Reading::Textbook)
                | Fault::LaterCycle(Reading::Textbook)
                | Fault::ReachGrew(Reading::Textbook)
        )
    }
}

/// Whether a token, kind 5 or an unknown call stands in `sheet` with quantifier 1 to 4.
pub fn has_optional_symbol(sheet: &Sheet) -> bool {
    let mut elements = sheet.rules.iter().flat_map(walk::elements);
    let symbol = |one| strings::symbol(one, sheet).filter(|found| *found != Symbol::End);
    elements.any(|one| one.may_be_absent() && symbol(one).is_some())
}

/// What was found of an answer.
#[derive(Clone, Debug, Default)]
pub struct Checked {
    pub faults: BTreeSet<Fault>,
    /// Of the rules that are kept, where there is a plan.
    pub trees: Census,
}

/// What does not hold of the original's answer. `None`: there are too many
/// symbols to enumerate.
pub fn faults(sheet: &Sheet, done: &Done) -> Option<BTreeSet<Fault>> {
    checked(sheet, done).map(|found| found.faults)
}

/// The same, and what was counted.
pub fn checked(sheet: &Sheet, done: &Done) -> Option<Checked> {
    let all: Vec<&Sheet> = std::iter::once(sheet)
        .chain(done.stages.iter().map(|stage| &stage.after))
        .collect();
    if all.iter().any(|after| !closed(sheet, after)) {
        return Some(Checked {
            faults: BTreeSet::from([Fault::Closed]),
            ..Checked::default()
        });
    }
    let alphabet = strings::alphabet(all.iter().copied())?;
    let languages: Vec<Languages> = all
        .iter()
        .map(|grammar| strings::languages(grammar, &alphabet))
        .collect();
    let bare: Vec<Languages> = match alphabet.contains_key(&Symbol::End) {
        true => all
            .iter()
            .map(|grammar| strings::without_marks(grammar, &alphabet))
            .collect(),
        false => languages.clone(),
    };
    let grammars: Vec<Grammar<'_>> = all
        .iter()
        .zip(languages.iter().zip(&bare))
        .map(|(sheet, (languages, bare))| Grammar {
            sheet,
            languages,
            bare,
        })
        .collect();
    let mut found = Checked::default();
    if done.plans() > 0 {
        let table = Table::up_to(strings::LONGEST, &alphabet);
        let numbers: Vec<Numbers> = all
            .iter()
            .map(|grammar| readings::numbers(grammar, &table))
            .collect();
        if !readings::agree(&numbers) {
            found.faults.insert(Fault::Readings);
        }
        found.trees = Census::of(numbers.last().expect("a run has a grammar"));
    }
    Run { done, grammars }.check(&mut found.faults);
    Some(found)
}

/// No rule of `after` calls a rule that `before` has and `after` has not.
fn closed(before: &Sheet, after: &Sheet) -> bool {
    let has = |sheet: &Sheet, wanted: u32| sheet.rules.iter().any(|rule| rule.name == wanted);
    after
        .rules
        .iter()
        .flat_map(walk::elements)
        .all(|element| match element.kind {
            Kind::Call { name, .. } => has(after, name) || !has(before, name),
            _ => true,
        })
}

struct Run<'a> {
    done: &'a Done,
    /// The one handed in, then the one that each plan leaves.
    grammars: Vec<Grammar<'a>>,
}

impl Run<'_> {
    fn check(&self, faults: &mut BTreeSet<Fault>) {
        let mut note = |holds: bool, fault: Fault| {
            if !holds {
                faults.insert(fault);
            }
        };
        note(self.same_strings(), Fault::Strings);
        note(self.left_as_planned(), Fault::LeftAsPlanned);
        note(self.plans_are_few(), Fault::Plans);
        note(self.nullable_agrees(), Fault::Nullable);
        note(self.cycles_agree(), Fault::Cycles);
        note(self.result_is_valid(), Fault::Valid);
        note(self.nothing_is_left(), Fault::Again);
        note(self.origins_agree(), Fault::Origins);
        note(self.trail_is_of_the_result(), Fault::TrailOfResult);
        for reading in [Reading::Textbook, Reading::Original] {
            note(self.shape(reading), Fault::Shape(reading));
            note(self.both_sorts(reading), Fault::BothSorts(reading));
            note(self.no_later_cycle(reading), Fault::LaterCycle(reading));
            note(self.reach_shrinks(reading), Fault::ReachGrew(reading));
        }
    }

    fn same_strings(&self) -> bool {
        let before = self.grammars[0].languages;
        let mut after = self.grammars.iter().flat_map(|grammar| grammar.languages);
        after.all(|(name, derived)| before[name] == *derived)
    }

    /// Hub and grammar of each plan.
    fn joined(&self) -> impl Iterator<Item = (usize, &Rule)> {
        self.done.stages.iter().enumerate().map(|(place, stage)| {
            let hub = stage.after.rules.iter().find(|rule| rule.id == stage.hub);
            (place, hub.expect("a plan leaves its hub"))
        })
    }

    /// Of the first sort: the rule's plain call, then something that is never empty.
    fn is_recursive(&self, place: usize, hub: &Rule, alternative: &Alternative) -> bool {
        let [first, rest @ ..] = &alternative.elements[..] else {
            return false;
        };
        let is_own = match first.kind {
            Kind::Call {
                name, arguments, ..
            } => name == hub.name && arguments == 0,
            _ => false,
        };
        is_own && first.quantifier == 0 && !self.grammars[place + 1].is_empty(rest)
    }

    /// Of the second sort: no left corner in the cycle that was replaced.
    fn is_primary(&self, place: usize, alternative: &Alternative, reading: Reading) -> bool {
        let corners = self.grammars[place + 1].corners(alternative, reading);
        self.done.stages[place]
            .cycle
            .iter()
            .all(|member| !corners.contains(member))
    }

    fn shape(&self, reading: Reading) -> bool {
        self.joined().all(|(place, hub)| {
            hub.alternatives.iter().all(|alternative| {
                self.is_recursive(place, hub, alternative)
                    || self.is_primary(place, alternative, reading)
            })
        })
    }

    fn both_sorts(&self, reading: Reading) -> bool {
        self.joined().all(|(place, hub)| {
            let mut all = hub.alternatives.iter();
            let primary = |one| self.is_primary(place, one, reading);
            all.clone().any(|one| self.is_recursive(place, hub, one)) && all.any(primary)
        })
    }

    fn no_later_cycle(&self, reading: Reading) -> bool {
        self.joined().all(|(place, hub)| {
            let later = &self.grammars[place + 1..];
            let can_be_empty = later[0].rule_can_be_empty(hub.name);
            let holds = |cycle: &Vec<u32>| cycle.contains(&hub.id);
            can_be_empty
                || later
                    .iter()
                    .all(|after| !after.cycles(reading).iter().any(holds))
        })
    }

    fn left_as_planned(&self) -> bool {
        self.joined().all(|(place, hub)| {
            let again = self.done.stages[place + 1..]
                .iter()
                .any(|stage| stage.hub == hub.id);
            let kept = self.done.result.rules.iter().find(|rule| rule.id == hub.id);
            again || kept.is_none_or(|rule| rule == hub)
        })
    }

    fn plans_are_few(&self) -> bool {
        let hubs: BTreeSet<u32> = self.done.stages.iter().map(|stage| stage.hub).collect();
        hubs.len() == self.done.plans() && hubs.len() <= self.grammars[0].sheet.rules.len()
    }

    fn reach_shrinks(&self, reading: Reading) -> bool {
        self.grammars.windows(2).all(|pair| {
            let (before, after) = (pair[0].reach(reading), pair[1].reach(reading));
            after
                .iter()
                .all(|(rule, reached)| reached.is_subset(&before[rule]))
        })
    }

    fn nullable_agrees(&self) -> bool {
        self.grammars.iter().all(|grammar| {
            let derives = |rule: &&Rule| grammar.rule_can_be_empty(rule.name);
            let own = grammar
                .sheet
                .rules
                .iter()
                .filter(derives)
                .map(|rule| rule.id);
            original::nullable_by_analysis(&ends_in_blocks(grammar.sheet)) == own.collect()
        })
    }

    fn cycles_agree(&self) -> bool {
        let last = self.grammars.last().expect("a run has a grammar");
        let found = self
            .done
            .declined
            .iter()
            .map(|decline| decline.cycle.clone());
        last.sheet.kind != 2 || found.eq(last.cycles(Reading::Original))
    }

    fn result_is_valid(&self) -> bool {
        let bytes = codec::bytes_of(&self.done.words());
        codec::read(&bytes).as_ref() == Ok(&self.done.result)
    }

    fn nothing_is_left(&self) -> bool {
        if self.done.plans() == 0 {
            return self.done.result == *self.grammars[0].sheet;
        }
        let again = ask_sheet(&self.done.result);
        again.is_ok_and(|again| again.plans() == 0 && again.result == self.done.result)
    }

    /// So a trail has fewer entries than a result that fits has nodes.
    fn trail_is_of_the_result(&self) -> bool {
        let nodes: BTreeSet<(u32, u32)> = walk::ids(&self.done.result)
            .into_iter()
            .map(|(sort, id)| (sort as u32, id))
            .collect();
        let mut trail = self.done.trail.iter();
        trail.all(|[sort, id, ..]| nodes.contains(&(*sort, *id)))
    }

    /// A reason 2 adds its owner's list first, a reason 1 only itself.
    fn origins_agree(&self) -> bool {
        let mut lists: BTreeMap<(u32, u32), Vec<(u32, u32)>> = BTreeMap::new();
        for [sort, id, reason, owner] in &self.done.trail {
            let mut added = match reason {
                2 => lists.get(&(*sort, *owner)).cloned().unwrap_or_default(),
                _ => Vec::new(),
            };
            added.push((*reason, *owner));
            let list = lists.entry((*sort, *id)).or_default();
            for origin in added {
                if !list.contains(&origin) {
                    list.push(origin);
                }
            }
        }
        let found = self.done.origins.iter();
        found
            .map(|node| ((node.sort as u32, node.id), node.list.clone()))
            .eq(lists)
    }
}
