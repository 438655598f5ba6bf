//! What the original has no notion of, asked of it by way of blocks.
//!
//! - The end of input, kind 7, which is matched without moving on. The original takes it as a symbol that is consumed. It is
//!   asked about a block of quantifier 1 around one element of kind 5, which has the quantifier, label, options and carried
//!   number: such a block is nullable and looked past, settles a corner, and is something to begin with.
//! - The textbook's reading of left corners. The original ends its search at a symbol of quantifier 1 to 4. It is asked about a
//!   block around the symbol, to which the quantifier moves.
//!
//! Nothing else in the pass tells such a block from what stands in it: both settle a corner, bind the same names, call no rule,
//! and count as one outermost element. Blocks may then be nine deep, which the original does not mind.
//!
//! What the original leaves is mapped back word for word. An added block has the element's id; the alternative in it and the
//! element within have ids that the sheet has not. Wherever the trail copies such a node, the copy is one too, and is left
//! out; all other fresh ids are counted anew.

use sheets::blocks::block_around;
use sheets::codec::{MOST_BYTES, encode};
use sheets::tree::{Alternative, Counters, Element, Kind, Sheet, quantifier};
use sheets::walk::{self, Sort};
use traced::{Decline, Limits, Stage, Trace};

use crate::{Done, Entry, Origins, ask_within, origins, sort};

const STANDARD: Limits = Limits::STANDARD;
/// The least element has 6 words, and its block 12 more; a copy of both takes 3 entries and not 1. What passes these
/// limits passes the standard ones once it is mapped back.
const TIMES: usize = 3;
const WIDE: Limits = Limits {
    bytes: TIMES * STANDARD.bytes,
    entries: TIMES * STANDARD.entries,
    ..STANDARD
};

/// By which left corners the original is to be asked.
#[derive(Clone, Copy, Debug, Eq, PartialEq)]
pub enum Reading {
    Original,
    Textbook,
}

/// A run of the original, mapped back.
pub struct Ran {
    pub result: Sheet,
    pub trail: Vec<Entry>,
    pub stages: Vec<Stage>,
    pub declined: Vec<Decline>,
    folding: Folding,
    unchanged: original::Answer,
}

impl Ran {
    pub fn done(self) -> Done {
        Done {
            origins: self.folding.origins(&self.unchanged, &self.trail),
            result: self.result,
            trail: self.trail,
            stages: self.stages,
            declined: self.declined,
        }
    }
}

/// The nodes of one sort, by the ids of the folded run, which rise from 0 without a gap: each with its id in the sheet, or
/// nothing where it was added.
#[derive(Clone, Debug, Default)]
struct Nodes {
    own: Vec<Option<u64>>,
    /// The next free id of the sheet's own.
    next: u64,
}

impl Nodes {
    fn put(&mut self, own: Option<u32>) -> u32 {
        self.own.push(own.map(u64::from));
        self.own.len() as u32 - 1
    }

    fn of(&self, id: u32) -> Option<u32> {
        self.own[id as usize].map(|own| own as u32)
    }

    /// A fresh node that is a copy of `from`: its id and that of `from`, unless it is one of those added.
    fn copied(&mut self, id: u32, from: u32) -> Option<[u32; 2]> {
        assert_eq!(id as usize, self.own.len(), "fresh ids rise by one");
        let owner = self.of(from);
        self.own.push(owner.map(|_| self.next));
        let owner = owner?;
        let fresh = self.next as u32;
        self.next += 1;
        Some([fresh, owner])
    }
}

/// A sheet with such blocks, and what its nodes are in the sheet without.
#[derive(Clone, Debug)]
pub struct Folding {
    /// As the original is asked about it.
    pub sheet: Sheet,
    /// Whether a block was added around the end of input, and around a symbol.
    pub ends: bool,
    pub symbols: bool,
    alternatives: Nodes,
    elements: Nodes,
}

impl Folding {
    pub fn of(sheet: &Sheet, reading: Reading) -> Folding {
        let nodes = |next: u32| Nodes {
            own: Vec::new(),
            next: u64::from(next),
        };
        let mut folding = Folding {
            sheet: sheet.clone(),
            ends: false,
            symbols: false,
            alternatives: nodes(sheet.counters.alternative),
            elements: nodes(sheet.counters.element),
        };
        let names: Vec<u32> = sheet.rules.iter().map(|rule| rule.name).collect();
        let folds = |element: &Element| match reading {
            Reading::Original => element.is_end_of_input(),
            Reading::Textbook => element.is_end_of_input() || is_optional_symbol(element, &names),
        };
        let mut rules = std::mem::take(&mut folding.sheet.rules);
        for rule in &mut rules {
            folding.fold(&mut rule.alternatives, &folds);
        }
        folding.sheet.rules = rules;
        folding.sheet.counters.alternative = folding.alternatives.own.len() as u32;
        folding.sheet.counters.element = folding.elements.own.len() as u32;
        folding
    }

    fn fold(&mut self, list: &mut [Alternative], folds: &impl Fn(&Element) -> bool) {
        for own in list {
            own.id = self.alternatives.put(Some(own.id));
            for element in &mut own.elements {
                element.id = self.elements.put(Some(element.id));
                if let Kind::Block(inner) = &mut element.kind {
                    self.fold(inner, folds);
                } else if folds(element) {
                    self.wrap(element);
                }
            }
        }
    }

    fn wrap(&mut self, element: &mut Element) {
        let end = element.is_end_of_input();
        self.ends |= end;
        self.symbols |= !end;
        let within = self.elements.put(None);
        let added = Alternative {
            id: self.alternatives.put(None),
            carried: if end { END } else { 0 },
            ..Alternative::default()
        };
        *element = block_around(element, within, added);
    }

    /// What the original leaves of a sheet that passes 1 to 6, or the refusal.
    pub fn run(mut self, sheet: &Sheet) -> Result<Ran, u32> {
        let (outcome, trace) = ask_within(&self.sheet, WIDE);
        let Trace {
            stages,
            trail,
            declined,
            ..
        } = trace;
        let mut told = Vec::new();
        let mut result = sheet.clone();
        let mut mapped = Vec::new();
        let ends = |entry: &Entry| entry[0] == Sort::Rule as u32;
        for (stage, entries) in stages.into_iter().zip(trail.split_inclusive(ends)) {
            told.extend(entries.iter().filter_map(|entry| self.entry(*entry)));
            let counters = self.counters(&stage.after).ok_or(8u32)?;
            result = self.unfolded(&stage.after, counters);
            if MOST_BYTES < 4 * encode(&result).len() || STANDARD.entries < told.len() {
                return Err(9);
            }
            mapped.push(Stage {
                after: result.clone(),
                ..stage
            });
        }
        let unchanged = outcome.inspect_err(|number| {
            assert_ne!(*number, 9, "what passes the wide limits passes the others");
        })?;
        Ok(Ran {
            result,
            trail: told,
            stages: mapped,
            declined,
            folding: self,
            unchanged,
        })
    }

    /// The entry as the unfolded run records it; nothing for a node that was added.
    fn entry(&mut self, [kind, id, reason, owner]: Entry) -> Option<Entry> {
        let [id, owner] = match kind {
            _ if kind == Sort::Alternative as u32 => self.alternatives.copied(id, owner)?,
            _ if kind == Sort::Element as u32 => self.elements.copied(id, owner)?,
            _ => [id, owner],
        };
        Some([kind, id, reason, owner])
    }

    /// The counters of the unfolded run, unless one has passed its end.
    fn counters(&self, after: &Sheet) -> Option<Counters> {
        Some(Counters {
            alternative: self.alternatives.next.try_into().ok()?,
            element: self.elements.next.try_into().ok()?,
            ..after.counters
        })
    }

    fn unfolded(&self, after: &Sheet, counters: Counters) -> Sheet {
        let mut sheet = after.clone();
        sheet.counters = counters;
        for rule in &mut sheet.rules {
            self.unfold(&mut rule.alternatives);
        }
        sheet
    }

    fn unfold(&self, list: &mut [Alternative]) {
        for own in list {
            own.id = self.alternatives.of(own.id).expect("not added");
            for element in &mut own.elements {
                let id = self.elements.of(element.id).expect("not added");
                if let Kind::Block(inner) = &mut element.kind {
                    match self.added(inner) {
                        true => unwrap(element),
                        false => self.unfold(inner),
                    }
                }
                element.id = id;
            }
        }
    }

    /// Whether these are the alternatives of a block that was added.
    fn added(&self, list: &[Alternative]) -> bool {
        matches!(list, [own] if self.alternatives.of(own.id).is_none())
    }

    /// The origin lists of all nodes but those added, by kind and id.
    fn origins(&self, unchanged: &original::Answer, trail: &[Entry]) -> Vec<Origins> {
        let mut nodes = walk::ids(&self.sheet);
        let told = trail.iter().map(|entry| (sort(entry[0]), entry[1]));
        nodes.extend(told.filter(|(sort, _)| !matches!(sort, Sort::Alternative | Sort::Element)));
        let sorts = [
            (Sort::Alternative, &self.alternatives),
            (Sort::Element, &self.elements),
        ];
        for (sort, known) in sorts {
            nodes.extend((0..known.own.len() as u32).map(|id| (sort, id)));
        }
        nodes.extend(walk::ids(&unchanged.result));
        let mut told: Vec<Origins> = origins(unchanged, nodes)
            .into_iter()
            .filter_map(|node| self.own_origins(node))
            .collect();
        told.sort_by_key(|node| (node.sort, node.id));
        told
    }

    fn own_origins(&self, node: Origins) -> Option<Origins> {
        let own = |id: u32| match node.sort {
            Sort::Alternative => self.alternatives.of(id),
            Sort::Element => self.elements.of(id),
            _ => Some(id),
        };
        let list = node.list.iter().map(|(reason, owner)| {
            let owner = own(*owner).expect("a copy of what was added is one too");
            (*reason, owner)
        });
        Some(Origins {
            sort: node.sort,
            id: own(node.id)?,
            list: list.collect(),
        })
    }
}

/// The carried number of an added alternative says whether the end of input stands in it.
const END: u32 = 7;

/// The element in place of its block, with the quantifier that it had.
fn unwrap(block: &mut Element) {
    let Kind::Block(inner) = &mut block.kind else {
        unreachable!("only blocks are added")
    };
    let mut element = inner[0].elements.pop().expect("one element");
    if inner[0].carried == END {
        assert_eq!(block.quantifier, quantifier::OPTIONAL);
        assert_eq!(element.kind, Kind::Other);
        element.kind = Kind::EndOfInput;
    } else {
        assert_eq!(element.quantifier, quantifier::ONE);
        element.quantifier = block.quantifier;
    }
    *block = element;
}

/// A token, kind 5 or an unknown call that may be absent.
fn is_optional_symbol(element: &Element, names: &[u32]) -> bool {
    let is_symbol = match &element.kind {
        Kind::Token(_) | Kind::Other => true,
        Kind::Call { name, .. } => !names.contains(name),
        _ => false,
    };
    is_symbol && element.may_be_absent()
}
