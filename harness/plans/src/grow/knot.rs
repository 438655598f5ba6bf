//! Knots: cycles of two to seven rules, several in a grammar, with everything that a plan may meet.

use reader::random::Random;
use reader::tree::{Alternative, Element, Payload, Rule};

use super::{alternative, call, element, rule, shuffle, token};

const TOKENS: u32 = 180;
const LABELS: u32 = 190;
/// The name of no rule.
const UNKNOWN: u32 = 170;
const MOST_DEPTH: usize = 4;

/// How often things are met, picked for a grammar: one in so many.
struct Mood {
    alternatives: usize,
    tail: usize,
    /// A corner that is split; one with another quantifier; one that is not bare.
    optional: usize,
    odd: usize,
    dressed: usize,
    /// A corner back to a rule in front of it, so that substitution may not end.
    back: usize,
    /// A corner behind epsilon or an action, one in a block, a rule that may be empty in front of one.
    silent: usize,
    nested: usize,
    veiled: usize,
    /// The end of input: in front of a corner, as a base, in a tail.
    ends: usize,
    blocks: usize,
    calls: usize,
    labels: usize,
    actions: usize,
    options: usize,
    /// Options and labels that may collide, rules that cannot be inlined.
    clash: usize,
    fixed: usize,
    /// Bases left out of the first rule of a knot, and bases of others, which may then be hubs.
    baseless: usize,
    based: usize,
}

impl Mood {
    fn pick(random: &mut Random) -> Mood {
        let mut one_in = |choices: [usize; 4]| choices[random.below(4)];
        Mood {
            alternatives: one_in([1, 2, 2, 4]),
            tail: one_in([1, 2, 2, 4]),
            optional: one_in([2, 6, 30, 1_000]),
            odd: one_in([20, 100, 1_000, 1_000]),
            dressed: one_in([20, 100, 1_000, 1_000]),
            back: one_in([4, 20, 1_000, 1_000]),
            silent: one_in([4, 20, 1_000, 1_000]),
            nested: one_in([4, 30, 1_000, 1_000]),
            veiled: one_in([6, 30, 1_000, 1_000]),
            ends: one_in([5, 20, 1_000, 1_000]),
            blocks: one_in([3, 6, 20, 1_000]),
            calls: one_in([3, 6, 20, 1_000]),
            labels: one_in([2, 6, 20, 1_000]),
            actions: one_in([3, 6, 20, 1_000]),
            options: one_in([1, 2, 6, 1_000]),
            clash: one_in([3, 6, 20, 1_000]),
            fixed: one_in([20, 60, 1_000, 1_000]),
            baseless: one_in([5, 40, 1_000, 1_000]),
            based: one_in([2, 10, 1_000, 1_000]),
        }
    }
}

struct Grower<'a> {
    random: &'a mut Random,
    mood: Mood,
    /// The rules of the knot in hand.
    first: u32,
    size: u32,
    /// The first name behind all knots: of a rule that may be empty; the next is of one that may not.
    outside: u32,
}

pub fn rules(random: &mut Random) -> Vec<Rule> {
    let knots = [1, 1, 1, 2, 2, 3, 5][random.below(7)];
    let sizes: Vec<u32> = (0..knots)
        .map(|_| random.within(2, 7).min(random.within(2, 7)) as u32)
        .collect();
    let mood = Mood::pick(random);
    let mut grower = Grower {
        random,
        mood,
        first: 1,
        size: 0,
        outside: 1 + sizes.iter().sum::<u32>(),
    };
    let mut rules = Vec::new();
    for size in sizes {
        grower.size = size;
        rules.extend((0..size).map(|place| grower.rule(place)));
        grower.first += size;
    }
    rules.extend(grower.outsiders());
    rules
}

impl Grower<'_> {
    fn one_in(&mut self, n: usize) -> bool {
        self.random.once_in(n)
    }

    /// One that may be empty, one that may not, and some that call a member of some knot.
    fn outsiders(&mut self) -> Vec<Rule> {
        let (empty, full) = (self.outside, self.outside + 1);
        let mut own = vec![alternative(vec![token(TOKENS)]), alternative(Vec::new())];
        shuffle(&mut own, self.random);
        let mut made = vec![
            rule(empty, own),
            rule(full, vec![alternative(vec![token(TOKENS + 1)])]),
        ];
        for name in 0..self.random.below(4) as u32 {
            let called = self.random.within(1, self.outside as usize - 1) as u32;
            let mut elements = vec![token(TOKENS), call(called)];
            if self.one_in(3) {
                elements = vec![
                    token(TOKENS),
                    element(Payload::Block(vec![alternative(elements)])),
                ];
            }
            made.push(rule(full + 1 + name, vec![alternative(elements)]));
        }
        made
    }

    fn rule(&mut self, place: u32) -> Rule {
        let ring = self.first + (place + 1) % self.size;
        let mut alternatives = vec![self.entering(place, ring)];
        for _ in 1..self.random.within(1, self.mood.alternatives) {
            let own = match self.random.below(4) {
                0 if place == 0 => self.base(place),
                1 => self.entering(place, self.first),
                _ => {
                    let next = self.member(place);
                    self.entering(place, next)
                }
            };
            alternatives.push(own);
        }
        let missing = match place {
            0 => self.one_in(self.mood.baseless),
            _ => !self.one_in(self.mood.based),
        };
        if !missing {
            alternatives.push(self.base(place));
        }
        shuffle(&mut alternatives, self.random);
        let mut made = rule(self.first + place, alternatives);
        if self.one_in(self.mood.fixed) {
            made.flags = self.random.within(1, 3) as u32;
        }
        made
    }

    /// The hub or a rule behind this one, seldom one in front of it.
    fn member(&mut self, place: u32) -> u32 {
        if self.one_in(self.mood.back) {
            return self.first + self.random.below(self.size as usize) as u32;
        }
        self.first + (self.random.within(place as usize + 1, self.size as usize) as u32) % self.size
    }

    /// An alternative with a member in front.
    fn entering(&mut self, place: u32, member: u32) -> Alternative {
        let corner = self.corner(member);
        let mut elements = Vec::new();
        if self.one_in(self.mood.silent) {
            elements.push(self.silent(place));
        }
        if self.one_in(self.mood.veiled) {
            let name = [self.outside, self.outside + 1, UNKNOWN][self.random.below(3)];
            elements.push(Element {
                quantifier: self.random.below(3) as u32,
                ..call(name)
            });
        }
        if self.one_in(self.mood.ends) {
            elements.push(self.end_of_input());
        }
        elements.push(corner);
        // Another corner that may be left out, in front of the first.
        if self.one_in(self.mood.optional) {
            let optional = Element {
                quantifier: 1,
                ..call(self.member(place))
            };
            elements.insert(0, optional);
        }
        elements.extend(self.tail(place, self.mood.tail));
        self.finished(place, elements)
    }

    fn corner(&mut self, member: u32) -> Element {
        let mut corner = call(member);
        if self.one_in(self.mood.optional) {
            corner.quantifier = 1;
        }
        if self.one_in(self.mood.odd) {
            corner.quantifier = self.random.within(2, 6) as u32;
        }
        if self.one_in(self.mood.dressed) {
            match self.random.below(3) {
                0 => corner.label = Some((0, LABELS)),
                1 => corner.options = vec![(1, 1)],
                _ => corner.payload = Payload::Call(member, 7, 0),
            }
        }
        if self.one_in(self.mood.nested) {
            let quantifier = self.random.below(7) as u32;
            let inner = vec![alternative(vec![corner])];
            corner = Element {
                quantifier,
                ..element(Payload::Block(inner))
            };
        }
        corner
    }

    fn base(&mut self, place: u32) -> Alternative {
        let mut elements = match self.random.below(16) {
            0 => Vec::new(),
            1 => vec![call(self.outside + self.random.below(2) as u32)],
            2 => vec![call(UNKNOWN)],
            3 => vec![element(Payload::Other)],
            _ if self.one_in(self.mood.ends) => vec![self.end_of_input()],
            _ => vec![token(TOKENS + self.random.below(3) as u32)],
        };
        for element in &mut elements {
            if self.random.once_in(12) {
                element.quantifier = self.random.below(7) as u32;
            }
        }
        elements.extend(self.tail(place, 1));
        self.finished(place, elements)
    }

    fn finished(&mut self, place: u32, elements: Vec<Element>) -> Alternative {
        let mut own = alternative(elements);
        own.carried = self.random.any();
        own.flag = u32::from(self.random.once_in(if place == 0 { 4 } else { 200 }));
        if self.one_in(self.mood.options) {
            let many = [1, 1, 2, 3, 12][self.random.below(5)];
            own.options = (0..many).map(|_| self.option()).collect();
        }
        own
    }

    /// Of one name mostly one value.
    fn option(&mut self) -> (u32, u32) {
        let name = self.random.within(1, 6) as u32;
        let value = match self.one_in(self.mood.clash) {
            true => self.random.below(2) as u32,
            false => name,
        };
        (name, value)
    }

    fn tail(&mut self, place: u32, most: usize) -> Vec<Element> {
        let count = self.random.within(0, most);
        let mut made: Vec<Element> = (0..count).map(|_| self.tail_element(place, 0)).collect();
        // Then all that is behind a corner may be what can be empty.
        if self.one_in(self.mood.ends) {
            made.push(self.end_of_input());
            return made;
        }
        // A satellite's alternative mostly consumes something.
        if place != 0 && !self.random.once_in(6) {
            made.push(token(TOKENS + self.random.below(4) as u32));
        }
        made
    }

    fn tail_element(&mut self, place: u32, depth: usize) -> Element {
        let mut made = self.tail_payload(place, depth);
        if self.one_in(self.mood.labels) {
            let shared = self.one_in(self.mood.clash);
            let own = LABELS + 1 + place;
            made.label = Some((0, if shared { LABELS } else { own }));
        }
        if self.random.once_in(6) {
            made.quantifier = self.random.below(7) as u32;
        }
        made
    }

    fn tail_payload(&mut self, place: u32, depth: usize) -> Element {
        if depth < MOST_DEPTH && self.one_in(self.mood.blocks) {
            let inner = (0..self.random.within(1, 2))
                .map(|_| {
                    let many = self.random.below(3);
                    alternative(
                        (0..many)
                            .map(|_| self.tail_element(place, depth + 1))
                            .collect(),
                    )
                })
                .collect();
            return element(Payload::Block(inner));
        }
        if self.one_in(self.mood.calls) {
            return call(self.random.within(1, self.outside as usize + 1) as u32);
        }
        if (place == 0 || self.random.once_in(60)) && self.one_in(self.mood.actions) {
            return self.silent(place);
        }
        if self.one_in(self.mood.ends) {
            return self.end_of_input();
        }
        // A token may have the name of a rule.
        match self.random.below(20) {
            0 => token(self.first),
            1 => element(Payload::Other),
            _ => token(TOKENS + self.random.below(4) as u32),
        }
    }

    fn end_of_input(&mut self) -> Element {
        Element {
            carried: self.random.below(3) as u32,
            quantifier: [0, self.random.below(7) as u32][self.random.below(2)],
            ..element(Payload::EndOfInput)
        }
    }

    /// Epsilon, or where it does no harm an action or predicate.
    fn silent(&mut self, place: u32) -> Element {
        if place != 0 && !self.random.once_in(60) {
            return element(Payload::Epsilon);
        }
        let many = self.random.below(3);
        let references: Vec<(u32, u32)> = (0..many).map(|_| self.reference()).collect();
        element(match self.random.below(3) {
            0 => Payload::Epsilon,
            1 => Payload::Action(0, references),
            _ => Payload::Predicate(0, references),
        })
    }

    /// To a token, a label or a rule that may be spliced in, or mostly to what is nowhere.
    fn reference(&mut self) -> (u32, u32) {
        let kind = self.random.below(3) as u32;
        let near = if self.one_in(self.mood.clash) { 3 } else { 12 };
        let name = match self.random.below(near) {
            0 => TOKENS + self.random.below(4) as u32,
            1 => LABELS + self.random.below(4) as u32,
            2 => self.first + self.random.below(self.size as usize) as u32,
            _ => 199,
        };
        (kind, name)
    }
}
