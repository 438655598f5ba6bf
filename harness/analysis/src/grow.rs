//! Grammars whose rules call each other, in rings, downwards or at random, of few rules and of many.

use reader::form::Form;
use reader::grow::{HEAD_WORDS, each_id};
use reader::random::Random;
use reader::tree::{Alternative, Element, Payload, Rule, Unit};

const MOST_RULES: usize = 128;
const MOST_DEPTH: usize = 8;
/// Words in front of the trailer.
const MOST_WORDS: usize = 8_184;
const RULE_WORDS: usize = 4;
const ALTERNATIVE_WORDS: usize = 5;
/// The head and the longest payload without references.
const ELEMENT_WORDS: usize = HEAD_WORDS + Form::NEWEST.call_words();

/// A unit that a reader must take.
pub fn unit(random: &mut Random) -> Unit {
    let shape = Shape::pick(random);
    // One name more than rules: the last one is of none.
    let names = random.names(shape.rules + 1);
    let mut order: Vec<u32> = (0..shape.rules as u32).collect();
    if random.once_in(2) {
        random.shuffle(&mut order);
    }
    let ids = rule_ids(random, shape.rules);
    let mut grower = Grower {
        random,
        room: shape.words - RULE_WORDS * shape.rules,
        shape,
        names,
    };
    let mut unit = Unit {
        kind: grower.random.within(1, 3) as u32,
        ..Unit::default()
    };
    for (id, at) in ids.into_iter().zip(order) {
        unit.rules.push(grower.rule(id, at as usize));
    }
    number(&mut unit);
    unit
}

/// Whom a rule calls, most of the time.
#[derive(Clone, Copy)]
enum Way {
    /// The next one of its group, and the last one the first.
    Next,
    /// One behind it.
    Later,
    /// Any one of its group.
    Any,
}

/// Picked first, so that rare forms come often enough. "One in" counts what is drawn.
struct Shape {
    rules: usize,
    /// In front of the trailer.
    words: usize,
    /// So many rules are a group.
    group: usize,
    way: Way,
    /// One in so many calls goes anywhere, or nowhere.
    stray: usize,
    /// At most so many in a list.
    alternatives: usize,
    elements: usize,
    /// One in so many elements is no call, may be left out, is a block; one alternative is empty.
    symbols: usize,
    optional: usize,
    blocks: usize,
    hollow: usize,
    /// One alternative in so many starts with an optional symbol, at which the readings part, or with the end of input.
    veiled: usize,
}

impl Shape {
    fn pick(random: &mut Random) -> Shape {
        let (rules, words, alternatives, elements) = match random.below(24) {
            0 => (random.within(60, 70), 4_000, 2, 2),
            1 => (random.within(100, MOST_RULES), 6_000, 2, 2),
            2 => (MOST_RULES, MOST_WORDS, 1, 2),
            3 => (random.within(1, 40), MOST_WORDS, 3, 3),
            4..=7 => (random.within(8, 30), 1_200, 2, 3),
            _ => (random.within(1, 7), random.within(60, 400), 3, 3),
        };
        Shape {
            rules,
            words,
            group: match random.below(3) {
                0 => rules,
                1 => random.within(1, 5),
                _ => random.within(1, rules),
            },
            way: [Way::Next, Way::Later, Way::Any][random.below(3)],
            stray: [3, 9, 40, 1_000][random.below(4)],
            alternatives,
            elements,
            symbols: [2, 3, 8, 1_000][random.below(4)],
            optional: [2, 4, 12, 1_000][random.below(4)],
            blocks: [2, 5, 9, 1_000][random.below(4)],
            hollow: [4, 30, 1_000][random.below(3)],
            veiled: [4, 30, 1_000][random.below(3)],
        }
    }
}

struct Grower<'a> {
    random: &'a mut Random,
    shape: Shape,
    names: Vec<u32>,
    room: usize,
}

impl Grower<'_> {
    /// Takes `words` from the room, if they are there.
    fn fits(&mut self, words: usize) -> bool {
        let fits = words <= self.room;
        if fits {
            self.room -= words;
        }
        fits
    }

    fn rule(&mut self, id: u32, at: usize) -> Rule {
        let flagged = self.random.once_in(9);
        Rule {
            id,
            name: self.names[at],
            flags: if flagged { self.random.below(4) } else { 0 } as u32,
            alternatives: self.alternatives(at, 0),
        }
    }

    /// Alternatives of the rule `at`, with `depth` blocks around them.
    fn alternatives(&mut self, at: usize, depth: usize) -> Vec<Alternative> {
        let least = usize::from(!self.random.once_in(20));
        let count = self.random.within(least, self.shape.alternatives);
        let mut list = Vec::new();
        while list.len() < count && self.fits(ALTERNATIVE_WORDS) {
            list.push(Alternative {
                flag: u32::from(self.random.once_in(12)),
                elements: self.elements(at, depth),
                ..Alternative::default()
            });
        }
        list
    }

    fn elements(&mut self, at: usize, depth: usize) -> Vec<Element> {
        if self.random.once_in(self.shape.hollow) {
            return Vec::new();
        }
        let count = self.random.within(1, self.shape.elements);
        let mut list = Vec::new();
        if self.random.once_in(self.shape.veiled) && self.fits(ELEMENT_WORDS) {
            let (payload, quantifier) = match self.random.once_in(3) {
                true => (Payload::EndOfInput, self.random.below(7)),
                false => (Payload::Other, self.random.within(1, 4)),
            };
            list.push(self.element(payload, quantifier));
        }
        for _ in 0..count {
            if !self.fits(ELEMENT_WORDS) {
                break;
            }
            let payload = self.payload(at, depth);
            let quantifier = match self.random.once_in(self.shape.optional) {
                true => self.random.below(7),
                false => 0,
            };
            list.push(self.element(payload, quantifier));
        }
        list
    }

    fn element(&mut self, payload: Payload, quantifier: usize) -> Element {
        let label = self.random.once_in(9);
        Element {
            id: 0,
            carried: self.random.any(),
            quantifier: quantifier as u32,
            label: label.then(|| (0, self.random.name())),
            options: Vec::new(),
            payload,
        }
    }

    fn payload(&mut self, at: usize, depth: usize) -> Payload {
        if depth < MOST_DEPTH && self.random.once_in(self.shape.blocks) {
            return Payload::Block(self.alternatives(at, depth + 1));
        }
        if !self.random.once_in(self.shape.symbols) {
            let called = self.called(at);
            return Payload::Call(self.names[called], self.random.below(2) as u32, 0);
        }
        match self.random.below(9) {
            0 => Payload::Epsilon,
            1 => Payload::Action(0, Vec::new()),
            2 => Payload::Predicate(0, Vec::new()),
            3 => Payload::Other,
            4 => Payload::EndOfInput,
            // A token may have the name of a rule.
            _ => Payload::Token(self.names[self.random.below(self.names.len())]),
        }
    }

    /// The place of a name: of a rule, or of none.
    fn called(&mut self, at: usize) -> usize {
        let (rules, group) = (self.shape.rules, self.shape.group);
        if self.random.once_in(self.shape.stray) {
            return self.random.below(rules + 1);
        }
        let first = at - at % group;
        let size = group.min(rules - first);
        match self.shape.way {
            Way::Next => first + (at - first + 1) % size,
            Way::Later => self.random.within(at + 1, rules),
            Way::Any => first + self.random.below(size),
        }
    }
}

fn rule_ids(random: &mut Random, count: usize) -> Vec<u32> {
    match random.below(3) {
        0 => (1..=count as u32).collect(),
        1 => (1..=count as u32).rev().collect(),
        _ => random.distinct(count, u32::MAX),
    }
}

/// Ids in reading order, and the counters behind them.
fn number(unit: &mut Unit) {
    let mut next = [0; 5];
    each_id(unit, &mut |sort, id| {
        *id = next[sort];
        next[sort] += 1;
    });
    unit.counters = next;
}
