//! Trees from seeds. They need not be valid: ids may repeat, counters may be below them.

use notation::{
    Alternative, Counters, Element, Kind, Label, OptionDecl, Reference, Rule, Semantics, Sheet,
    least_counters,
};

/// Names are below this.
pub const NAMES: u32 = 12;

/// Splitmix64.
pub struct Random(pub u64);

impl Random {
    pub fn next(&mut self) -> u64 {
        self.0 = self.0.wrapping_add(0x9e37_79b9_7f4a_7c15);
        let mixed = (self.0 ^ (self.0 >> 30)).wrapping_mul(0xbf58_476d_1ce4_e5b9);
        let mixed = (mixed ^ (mixed >> 27)).wrapping_mul(0x94d0_49bb_1331_11eb);
        mixed ^ (mixed >> 31)
    }

    pub fn below(&mut self, end: u32) -> u32 {
        (self.next() % u64::from(end)) as u32
    }

    fn some<T>(&mut self, most: u32, mut one: impl FnMut(&mut Self) -> T) -> Vec<T> {
        (0..self.below(most + 1)).map(|_| one(self)).collect()
    }

    /// Often 0, sometimes small, seldom any word.
    fn word(&mut self) -> u32 {
        match self.below(8) {
            0 => self.next() as u32,
            1 | 2 => self.below(100),
            _ => 0,
        }
    }

    fn name(&mut self) -> u32 {
        1 + self.below(NAMES - 1)
    }

    /// The next one, or any.
    fn id(&mut self, next: &mut u32) -> u32 {
        let id = if self.below(5) == 0 {
            self.word()
        } else {
            *next
        };
        *next = id.wrapping_add(1);
        id
    }
}

#[derive(Clone, Copy)]
struct Next {
    alternative: u32,
    element: u32,
    label: u32,
    body: u32,
}

pub fn sheet(random: &mut Random) -> Sheet {
    let mut next = Next {
        alternative: 10,
        element: 20,
        label: 0,
        body: 0,
    };
    let (mut id, mut names) = (1, Vec::new());
    let rules = random.some(4, |random| {
        let name = random.name();
        let fresh = !names.contains(&name);
        names.push(name);
        fresh.then(|| Rule {
            id: random.id(&mut id),
            name,
            flags: random.below(4),
            alternatives: random.some(3, |random| alternative(random, &mut next, 0)),
        })
    });
    let mut sheet = Sheet {
        kind: 1 + random.below(3),
        rules: rules.into_iter().flatten().collect(),
        preserved: random.some(2, |random| random.below(9)),
        ..Sheet::default()
    };
    sheet.preserved.sort_unstable();
    sheet.preserved.dedup();
    sheet.counters = match random.below(2) {
        0 => least_counters(&sheet),
        _ => Counters {
            alternative: random.word(),
            predicate: random.word(),
            ..Counters::default()
        },
    };
    sheet
}

fn alternative(random: &mut Random, next: &mut Next, depth: u32) -> Alternative {
    Alternative {
        id: random.id(&mut next.alternative),
        carried: random.word(),
        labelled: random.below(4) == 0,
        options: options(random),
        elements: random.some(3, |random| element(random, next, depth)),
    }
}

fn options(random: &mut Random) -> Vec<OptionDecl> {
    let most = 2 * (random.below(4) / 3);
    random.some(most, |random| OptionDecl {
        name: random.name(),
        value: random.word(),
    })
}

fn element(random: &mut Random, next: &mut Next, depth: u32) -> Element {
    let id = random.id(&mut next.element);
    let label = (random.below(3) == 0).then(|| Label {
        id: random.id(&mut next.label),
        name: random.name(),
    });
    Element {
        id,
        carried: random.word(),
        quantifier: random.below(7),
        label,
        options: options(random),
        kind: kind(random, next, depth),
    }
}

fn kind(random: &mut Random, next: &mut Next, depth: u32) -> Kind {
    match random.below(8) {
        0 => Kind::Epsilon,
        1 => Kind::Action(semantics(random, next)),
        2 => Kind::Predicate(semantics(random, next)),
        3 => Kind::Call {
            name: random.name(),
            arguments: random.word(),
            precedence: [0, 0, 1, 4, u32::MAX][random.below(5) as usize],
        },
        4 => Kind::Token(random.name()),
        6 if depth < 8 => {
            Kind::Block(random.some(2, |random| alternative(random, next, depth + 1)))
        }
        7 => Kind::EndOfInput,
        _ => Kind::Other,
    }
}

fn semantics(random: &mut Random, next: &mut Next) -> Semantics {
    Semantics {
        id: random.id(&mut next.body),
        references: random.some(2, |random| Reference {
            kind: random.below(3),
            name: random.name(),
        }),
    }
}
