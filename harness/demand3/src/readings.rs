//! How many derivation trees a rule has for a string, as SPECIFICATION 13 reads a grammar.
//!
//! Two trees are told apart by the slot of each alternative taken, a rule's or a block's;
//! by whether an optional (quantifiers 1, 2) is absent, which is another tree than one
//! that is there and empty; by how often a repeated element (3 to 6) is taken, and each
//! time how; and below each call by the called rule's own tree. A symbol has one tree, an
//! unknown call too, and so has what is silent. Nothing else of a sheet matters.

use std::collections::BTreeMap;

use sheets::tree::{Alternative, Element, Kind, Sheet};

use crate::strings::{Alphabet, Symbol, symbol};

/// How many trees there are. A number is told up to `MOST`, which stands for all from there on.
#[derive(Clone, Copy, Debug, Eq, Ord, PartialEq, PartialOrd)]
pub enum Number {
    Finite(u64),
    WithoutEnd,
}

pub const MOST: u64 = u64::MAX;

/// The trees that are known so far.
///
/// A number that has reached `MOST` grows unseen, but the depth does not: deeper trees
/// are more trees.
#[derive(Clone, Copy, Debug, Eq, PartialEq)]
enum Trees {
    /// How many, and how deep the deepest is, in calls.
    Known(u64, usize),
    WithoutEnd,
}

use Trees::{Known, WithoutEnd};

impl Trees {
    const NONE: Trees = Known(0, 0);
    const ONE: Trees = Known(1, 0);

    /// One of these or one of those.
    fn or(self, other: Trees) -> Trees {
        match (self, other) {
            (Known(own, depth), Known(more, deep)) => {
                Known(own.saturating_add(more), depth.max(deep))
            }
            _ => WithoutEnd,
        }
    }

    /// One of these and one of those.
    fn and(self, other: Trees) -> Trees {
        match (self, other) {
            (Trees::NONE, _) | (_, Trees::NONE) => Trees::NONE,
            (Known(own, depth), Known(more, deep)) => {
                Known(own.saturating_mul(more), depth.max(deep))
            }
            _ => WithoutEnd,
        }
    }

    fn below_a_call(self) -> Trees {
        match self {
            Trees::NONE | WithoutEnd => self,
            Known(number, depth) => Known(number, depth + 1),
        }
    }

    /// Without end, if there are any.
    fn endless(self) -> Trees {
        match self {
            Trees::NONE => Trees::NONE,
            _ => WithoutEnd,
        }
    }

    fn number(self) -> Number {
        match self {
            Known(number, _) => Number::Finite(number),
            WithoutEnd => Number::WithoutEnd,
        }
    }
}

/// The strings for which trees are counted, the empty one first, with every part of each.
pub struct Table {
    /// By length.
    strings: Vec<Vec<Symbol>>,
    places: BTreeMap<Vec<Symbol>, usize>,
    /// Of each string the places of front and back, for every cut through it.
    cuts: Vec<Vec<(usize, usize)>>,
}

impl Table {
    /// All strings of at most so many symbols.
    pub fn up_to(length: usize, alphabet: &Alphabet) -> Self {
        let mut strings = vec![Vec::new()];
        let mut first = 0;
        for _ in 0..length {
            let shorter = first..strings.len();
            first = strings.len();
            for place in shorter {
                for symbol in alphabet.keys() {
                    let longer = [&strings[place][..], &[*symbol]].concat();
                    strings.push(longer);
                }
            }
        }
        Table::of(strings)
    }

    /// A string of any length, and its parts.
    pub fn parts_of(string: &[Symbol]) -> Self {
        let mut strings = vec![Vec::new()];
        for length in 1..=string.len() {
            let mut parts: Vec<Vec<Symbol>> =
                string.windows(length).map(<[Symbol]>::to_vec).collect();
            parts.sort();
            parts.dedup();
            strings.extend(parts);
        }
        Table::of(strings)
    }

    fn of(strings: Vec<Vec<Symbol>>) -> Self {
        let numbered = strings.iter().cloned().enumerate();
        let places: BTreeMap<_, _> = numbered.map(|(place, string)| (string, place)).collect();
        let cut = |string: &Vec<Symbol>| {
            let at = |middle| (places[&string[..middle]], places[&string[middle..]]);
            (0..=string.len()).map(at).collect()
        };
        let cuts = strings.iter().map(cut).collect();
        Table {
            strings,
            places,
            cuts,
        }
    }

    pub fn strings(&self) -> &[Vec<Symbol>] {
        &self.strings
    }

    pub fn place(&self, string: &[Symbol]) -> usize {
        self.places[string]
    }
}

/// Of each string of a table its trees.
type Row = Vec<Trees>;

/// By the id of a rule, the number of its trees for each string of a table.
pub type Numbers = BTreeMap<u32, Vec<Number>>;

/// Counted in rounds: the first finds the trees in which the rule calls none, each further
/// one also those that are a call deeper. A round that changes nothing is the last.
///
/// The bound: where a rule has a tree for a string of `n` symbols that is more than
/// `(n + 1) * rules` deep, it has trees without end. For then, on a path down from the
/// root, one rule comes twice with parts of one length, and so with one and the same part
/// of the string, since what stands below derives a part of what stands above. The tree
/// above can be put in the place of the one below, and again, and each time there is a
/// larger one. So there are trees without end where a round after the bound still changes
/// something: it has found a deeper tree, or that a part of one is without end.
///
/// After its bound a number changes once at most, so there is a last round. What that
/// leaves is no more than there is; and no less, since every tree has a depth, and further
/// rounds would change nothing.
pub fn numbers(sheet: &Sheet, table: &Table) -> Numbers {
    let none = vec![Trees::NONE; table.strings.len()];
    let mut counter = Counter {
        sheet,
        table,
        rows: vec![none; sheet.rules.len()],
    };
    for round in 1.. {
        let rows = counter.next(round);
        if rows == counter.rows {
            break;
        }
        counter.rows = rows;
    }
    let rules = sheet.rules.iter().map(|rule| rule.id);
    let told = |row: Row| row.into_iter().map(Trees::number).collect();
    rules.zip(counter.rows.into_iter().map(told)).collect()
}

/// Whether every rule that a later grammar still has, by its id, has the numbers of the first.
pub fn agree(run: &[Numbers]) -> bool {
    let mut later = run[1..].iter().flatten();
    later.all(|(rule, row)| run[0].get(rule) == Some(row))
}

/// For how many rules and strings there are so many trees.
#[derive(Clone, Copy, Debug, Default, Eq, PartialEq)]
pub struct Census {
    pub none: usize,
    pub one: usize,
    /// More than one, and fewer than `MOST`.
    pub several: usize,
    /// The greatest number of these.
    pub greatest: u64,
    pub most: usize,
    pub without_end: usize,
}

impl Census {
    pub fn of(numbers: &Numbers) -> Self {
        let mut census = Census::default();
        for number in numbers.values().flatten() {
            match number {
                Number::Finite(0) => census.none += 1,
                Number::Finite(1) => census.one += 1,
                Number::Finite(MOST) => census.most += 1,
                Number::Finite(several) => {
                    census.several += 1;
                    census.greatest = census.greatest.max(*several);
                }
                Number::WithoutEnd => census.without_end += 1,
            }
        }
        census
    }

    pub fn add(&mut self, other: Census) {
        self.none += other.none;
        self.one += other.one;
        self.several += other.several;
        self.greatest = self.greatest.max(other.greatest);
        self.most += other.most;
        self.without_end += other.without_end;
    }
}

struct Counter<'a> {
    sheet: &'a Sheet,
    table: &'a Table,
    /// Of each rule of the sheet, in its order: what the last round found.
    rows: Vec<Row>,
}

impl Counter<'_> {
    fn next(&self, round: usize) -> Vec<Row> {
        let rules = self.sheet.rules.iter().zip(&self.rows);
        let counted = rules.map(|(rule, before)| {
            let mut row = self.alternatives(&rule.alternatives);
            for ((trees, before), string) in row.iter_mut().zip(before).zip(&self.table.strings) {
                *trees = trees.below_a_call();
                let bound = (string.len() + 1) * self.sheet.rules.len();
                if round > bound && trees != before {
                    *trees = trees.endless();
                }
            }
            row
        });
        counted.collect()
    }

    fn alternatives(&self, list: &[Alternative]) -> Row {
        let none = vec![Trees::NONE; self.table.strings.len()];
        let rows = list.iter().map(|one| self.sequence(&one.elements));
        rows.fold(none, |sum, row| either(&sum, &row))
    }

    fn sequence(&self, elements: &[Element]) -> Row {
        let rows = elements.iter().map(|one| self.element(one));
        rows.reduce(|front, back| self.joined(&front, &back))
            .unwrap_or_else(|| self.one_of(&[]))
    }

    fn element(&self, element: &Element) -> Row {
        let once = self.once(element);
        match element.quantifier {
            0 => once,
            1 | 2 => either(&self.one_of(&[]), &once),
            3 | 4 => self.repeated(&once),
            _ => self.joined(&once, &self.repeated(&once)),
        }
    }

    fn once(&self, element: &Element) -> Row {
        if let Some(found) = symbol(element, self.sheet) {
            return self.one_of(&[found]);
        }
        match &element.kind {
            Kind::Call { name, .. } => {
                let mut rules = self.sheet.rules.iter();
                let place = rules.position(|rule| rule.name == *name);
                self.rows[place.expect("a call of no rule is a symbol")].clone()
            }
            Kind::Block(inner) => self.alternatives(inner),
            _ => self.one_of(&[]),
        }
    }

    /// One tree for this string, none for any other. The table may not have it.
    fn one_of(&self, string: &[Symbol]) -> Row {
        let mut row = vec![Trees::NONE; self.table.strings.len()];
        if let Some(place) = self.table.places.get(string) {
            row[*place] = Trees::ONE;
        }
        row
    }

    fn joined(&self, front: &Row, back: &Row) -> Row {
        let cuts = self.table.cuts.iter();
        let sum = |cuts: &Vec<(usize, usize)>| {
            let parts = cuts
                .iter()
                .map(|(left, right)| front[*left].and(back[*right]));
            parts.fold(Trees::NONE, Trees::or)
        };
        cuts.map(sum).collect()
    }

    /// Any number of times, none included. What can be empty can be taken once more, in
    /// front, without end.
    fn repeated(&self, once: &Row) -> Row {
        let mut row: Row = vec![Trees::ONE];
        for cuts in &self.table.cuts[1..] {
            let parts = cuts[1..]
                .iter()
                .map(|(left, right)| once[*left].and(row[*right]));
            row.push(parts.fold(Trees::NONE, Trees::or));
        }
        match once[0] {
            Trees::NONE => row,
            _ => row.into_iter().map(Trees::endless).collect(),
        }
    }
}

fn either(one: &Row, other: &Row) -> Row {
    let both = one.iter().zip(other);
    both.map(|(own, more)| own.or(*more)).collect()
}
