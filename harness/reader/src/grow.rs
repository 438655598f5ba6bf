//! Grammars that a reader must take: of every shape, and up to each limit.

use crate::form::Form;
use crate::random::Random;
use crate::tree::{Alternative, Element, Payload, Rule, Sheet, Unit};

/// The words in front of an element's payload, without options.
pub const HEAD_WORDS: usize = 6;

/// None mostly; else the least two words of one, and the last.
const PRECEDENCES: [u32; 6] = [0, 0, 0, 1, 2, u32::MAX];

/// How far a unit may grow. Beyond the format's own limits it is one that must be refused.
#[derive(Clone, Copy)]
pub struct Limits {
    /// In which words are counted.
    pub form: Form,
    pub rules: usize,
    pub depth: usize,
    /// Words in front of the trailer.
    pub words: usize,
}

impl Limits {
    pub const FORMAT: Limits = Limits {
        form: Form::NEWEST,
        rules: 128,
        depth: 8,
        words: 8_184,
    };
    /// One more of each, so that a unit may just pass one of them.
    pub const ABOVE: Limits = Limits {
        form: Form::NEWEST,
        rules: 129,
        depth: 9,
        words: 8_185,
    };
}

/// A unit within the limits, its ids different and below their counters.
pub fn unit(random: &mut Random, limits: Limits) -> Unit {
    let mut unit = Unit {
        kind: random.within(1, 3) as u32,
        ..Unit::default()
    };
    let shape = Shape::pick(random, limits);
    let mut grower = Grower {
        room: shape.room,
        random,
        limits,
        blocks: shape.blocks,
        most: shape.most,
    };
    unit.rules = grower.rules(shape.rules);
    grower.room = shape.room - (Sheet::of_in(limits.form, &unit).words.len() - 8);
    unit.preserved = grower.preserved(&unit.rules, shape.full);
    number(&mut unit, random);
    unit
}

/// The outline of a unit, picked first so that rare forms come often enough.
struct Shape {
    rules: usize,
    /// Words in front of the trailer.
    room: usize,
    /// One element in so many is a block.
    blocks: usize,
    /// Alternatives in a list and elements in an alternative, at most.
    most: usize,
    /// Whether preserved ids take all the room that is left.
    full: bool,
}

impl Shape {
    fn pick(random: &mut Random, limits: Limits) -> Shape {
        let (rules, room, blocks, most, full) = match random.below(40) {
            0 => (0, random.below(40), 1, 0, random.once_in(2)),
            1 | 2 => (limits.rules, 2_400, 20, 1, false),
            3 => (random.within(100, limits.rules), limits.words, 8, 3, false),
            4 => (random.below(40), limits.words, 6, 60, random.once_in(2)),
            5..=9 => (random.within(1, 4), 900, 1, 2, false),
            10..=19 => (random.within(1, 3), 120, 3, 3, false),
            _ => (random.within(0, 8), random.within(20, 500), 7, 4, false),
        };
        Shape {
            rules,
            room,
            blocks,
            most,
            full,
        }
    }
}

struct Grower<'a> {
    random: &'a mut Random,
    room: usize,
    limits: Limits,
    blocks: usize,
    most: usize,
}

impl Grower<'_> {
    /// Takes `words` from the room, if they are there.
    fn fits(&mut self, words: usize) -> bool {
        if self.room < words {
            return false;
        }
        self.room -= words;
        true
    }

    fn rules(&mut self, count: usize) -> Vec<Rule> {
        let ids = rule_ids(self.random, count);
        let names = rule_names(self.random, count);
        let mut rules = Vec::new();
        for (id, name) in ids.into_iter().zip(names) {
            if !self.fits(4) {
                break;
            }
            rules.push(Rule {
                id,
                name,
                flags: self.random.below(4) as u32,
                alternatives: self.alternatives(0),
            });
        }
        rules
    }

    /// Alternatives with `depth` blocks around them.
    fn alternatives(&mut self, depth: usize) -> Vec<Alternative> {
        let count = self.random.within(0, self.most);
        let mut list = Vec::new();
        while list.len() < count && self.fits(5) {
            list.push(Alternative {
                id: 0,
                carried: self.random.any(),
                flag: self.random.below(2) as u32,
                options: self.options(),
                elements: self.elements(depth),
            });
        }
        list
    }

    fn elements(&mut self, depth: usize) -> Vec<Element> {
        let count = self.random.within(0, self.most);
        let mut list = Vec::new();
        // A call has the longest payload without references and alternatives.
        let words = HEAD_WORDS + self.limits.form.call_words();
        while list.len() < count && self.fits(words) {
            let label = self.random.once_in(5);
            list.push(Element {
                id: 0,
                carried: self.random.any(),
                quantifier: self.random.below(7) as u32,
                label: label.then(|| (0, self.random.name())),
                options: self.options(),
                payload: self.payload(depth),
            });
        }
        list
    }

    fn payload(&mut self, depth: usize) -> Payload {
        if depth < self.limits.depth && self.random.once_in(self.blocks) {
            return Payload::Block(self.alternatives(depth + 1));
        }
        match self.random.below(7) {
            0 => Payload::Epsilon,
            1 => Payload::Action(0, self.references()),
            2 => Payload::Predicate(0, self.references()),
            3 => Payload::Call(self.random.name(), self.random.any(), 0),
            4 => Payload::Token(self.random.name()),
            5 => Payload::EndOfInput,
            _ => Payload::Other,
        }
    }

    fn options(&mut self) -> Vec<(u32, u32)> {
        let mut list = Vec::new();
        while self.random.once_in(6) && self.fits(2) {
            list.push((self.random.name(), self.random.any()));
        }
        list
    }

    fn references(&mut self) -> Vec<(u32, u32)> {
        let mut list = Vec::new();
        while self.random.once_in(2) && self.fits(2) {
            list.push((self.random.below(3) as u32, self.random.name()));
        }
        list
    }

    /// Rising ids: of rules, or any; a few, or as many as there is room for.
    fn preserved(&mut self, rules: &[Rule], full: bool) -> Vec<u32> {
        let mut ids = match full {
            true => self.random.distinct(self.room, u32::MAX),
            false if self.random.once_in(2) => Vec::new(),
            false => {
                let n = self.random.below(self.room.min(6) + 1);
                self.random.distinct(n, u32::MAX)
            }
        };
        if !full && self.random.once_in(2) {
            let free = self.room - ids.len();
            ids.extend(rules.iter().map(|r| r.id).take(free.min(4)));
        }
        ids.sort_unstable();
        ids.dedup();
        ids
    }
}

fn rule_ids(random: &mut Random, count: usize) -> Vec<u32> {
    if random.once_in(2) {
        return (1..=count as u32).collect();
    }
    let mut ids = random.distinct(count, u32::MAX);
    if count > 0 && random.once_in(4) {
        ids[0] = u32::MAX;
    }
    ids
}

fn rule_names(random: &mut Random, count: usize) -> Vec<u32> {
    random.names(count)
}

/// Gives each node its id and each sort its counter.
pub fn number(unit: &mut Unit, random: &mut Random) {
    let mut counts = [0; 5];
    each_id(unit, &mut |sort, _| counts[sort] += 1);
    let mut ids = counts.map(|n| sort_ids(random, n));
    for (sort, list) in ids.iter().enumerate() {
        unit.counters[sort] = counter(random, list);
    }
    each_id(unit, &mut |sort, id| {
        *id = ids[sort].pop().expect("one id for each node");
    });
}

/// Different ids, all below the last word, so that a counter fits above them.
fn sort_ids(random: &mut Random, n: usize) -> Vec<u32> {
    let base = match random.below(3) {
        0 => 0,
        1 => random.below(100) as u32,
        _ => random.word() >> 1,
    };
    let mut dense: Vec<u32> = (base..base + n as u32).collect();
    match random.below(4) {
        0 => dense.reverse(),
        1 => random.shuffle(&mut dense),
        2 => return random.distinct(n, u32::MAX),
        _ => {}
    }
    dense
}

/// Just above the ids, a little above them, or far above.
fn counter(random: &mut Random, ids: &[u32]) -> u32 {
    let Some(last) = ids.iter().max() else {
        return random.any();
    };
    match random.below(3) {
        0 => last + 1,
        1 => last.saturating_add(random.within(1, 9) as u32),
        _ => u32::MAX,
    }
}

/// Hands every id of the unit to `see`, with its sort, in the order of the sheet.
pub fn each_id(unit: &mut Unit, see: &mut dyn FnMut(usize, &mut u32)) {
    for rule in &mut unit.rules {
        each_in(&mut rule.alternatives, see);
    }
}

fn each_in(alternatives: &mut [Alternative], see: &mut dyn FnMut(usize, &mut u32)) {
    for alternative in alternatives {
        see(0, &mut alternative.id);
        for element in &mut alternative.elements {
            see(1, &mut element.id);
            if let Some((id, _)) = &mut element.label {
                see(2, id);
            }
            match &mut element.payload {
                Payload::Action(id, _) => see(3, id),
                Payload::Predicate(id, _) => see(4, id),
                Payload::Block(inner) => each_in(inner, see),
                _ => {}
            }
        }
    }
}

/// Gives each call a precedence, nested ones too. The unit then has words in those forms alone that have a place for it.
pub fn give_precedences(unit: &mut Unit, random: &mut Random) {
    for rule in &mut unit.rules {
        give_in(&mut rule.alternatives, random);
    }
}

/// The third word of a call.
pub fn any_precedence(random: &mut Random) -> u32 {
    PRECEDENCES[random.below(PRECEDENCES.len())]
}

fn give_in(alternatives: &mut [Alternative], random: &mut Random) {
    for element in alternatives.iter_mut().flat_map(|own| &mut own.elements) {
        match &mut element.payload {
            Payload::Call(_, _, precedence) => {
                *precedence = any_precedence(random);
            }
            Payload::Block(inner) => give_in(inner, random),
            _ => {}
        }
    }
}
