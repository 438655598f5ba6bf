//! A grammar without nesting: each block is a node of its own beside the rules, each alternative a
//! list of items, and nullability is found by counting down what alternatives still wait for.

use std::collections::HashMap;

use sheets::tree::{Alternative, Element, Kind, Sheet};

#[derive(Clone, Copy)]
enum Item {
    /// Epsilon, an action, a predicate, and the end of input, whatever its quantifier.
    Nothing,
    /// A token, kind 5, an unknown call.
    Symbol { optional: bool },
    /// A rule that is called, or a block.
    Node { node: usize, optional: bool },
}

/// The rules are the first nodes, in the order of the sheet.
pub struct Flat {
    rules: usize,
    bodies: Vec<Vec<Vec<Item>>>,
}

impl Flat {
    pub fn of(sheet: &Sheet) -> Flat {
        let names = (0..).zip(&sheet.rules).map(|(at, rule)| (rule.name, at));
        let names: HashMap<u32, usize> = names.collect();
        // Grows by a list for each block met, until no block is left.
        let mut lists: Vec<&[Alternative]> =
            sheet.rules.iter().map(|rule| &*rule.alternatives).collect();
        let mut bodies = Vec::new();
        while let Some(list) = lists.get(bodies.len()).copied() {
            let mut body = Vec::new();
            for alternative in list {
                let items = alternative.elements.iter();
                body.push(items.map(|one| item(one, &names, &mut lists)).collect());
            }
            bodies.push(body);
        }
        Flat {
            rules: sheet.rules.len(),
            bodies,
        }
    }

    /// Of each node, whether it is nullable (SPECIFICATION 6.2 to 6.4).
    pub fn nullable(&self) -> Vec<bool> {
        let mut waits = Waits::new(self.bodies.len());
        for (node, body) in self.bodies.iter().enumerate() {
            body.iter().for_each(|items| waits.add(node, items));
        }
        let mut nullable = vec![false; self.bodies.len()];
        while let Some(node) = waits.ready.pop() {
            if !nullable[node] {
                nullable[node] = true;
                waits.met(node);
            }
        }
        nullable
    }

    /// Of each node, the nodes that stand in front in it (SPECIFICATION 6.5, 14.1).
    pub fn fronts(&self, nullable: &[bool], textbook: bool) -> Vec<Vec<usize>> {
        let passed = |item: &Item| match *item {
            Item::Nothing => true,
            Item::Symbol { optional } => textbook && optional,
            Item::Node { node, optional } => optional || nullable[node],
        };
        let front = |items: &Vec<Item>| {
            let stop = items.iter().position(|item| !passed(item));
            nodes(&items[..stop.map_or(items.len(), |at| at + 1)])
        };
        let all = self.bodies.iter();
        all.map(|body| body.iter().flat_map(front).collect())
            .collect()
    }

    /// Of each node, the nodes that stand anywhere in it.
    pub fn parts(&self) -> Vec<Vec<usize>> {
        let all = self.bodies.iter();
        all.map(|body| body.iter().flat_map(|items| nodes(items)).collect())
            .collect()
    }

    /// The rules that `edges` lead to from a rule, by way of blocks alone.
    pub fn met(&self, rule: usize, edges: &[Vec<usize>]) -> Vec<usize> {
        let mut rules = Vec::new();
        let mut open = edges[rule].clone();
        while let Some(node) = open.pop() {
            if node < self.rules {
                rules.push(node);
            } else {
                open.extend(&edges[node]);
            }
        }
        rules
    }
}

fn item<'a>(
    element: &'a Element,
    names: &HashMap<u32, usize>,
    lists: &mut Vec<&'a [Alternative]>,
) -> Item {
    let optional = (1..=4).contains(&element.quantifier);
    match &element.kind {
        Kind::Epsilon | Kind::Action(_) | Kind::Predicate(_) | Kind::EndOfInput => Item::Nothing,
        Kind::Token(_) | Kind::Other => Item::Symbol { optional },
        Kind::Call { name, .. } => match names.get(name) {
            Some(rule) => Item::Node {
                node: *rule,
                optional,
            },
            None => Item::Symbol { optional },
        },
        Kind::Block(inner) => {
            lists.push(inner);
            let node = lists.len() - 1;
            Item::Node { node, optional }
        }
    }
}

fn nodes(items: &[Item]) -> Vec<usize> {
    let node = |item: &Item| match item {
        Item::Node { node, .. } => Some(*node),
        _ => None,
    };
    items.iter().filter_map(node).collect()
}

/// Alternatives, each with the number of nodes that must be found nullable before it is.
struct Waits {
    /// The node that an alternative belongs to, and that number.
    alternatives: Vec<(usize, usize)>,
    /// Of each node, the alternatives that wait for it, one as often as it has the node.
    waiting: Vec<Vec<usize>>,
    /// Nodes with an alternative that waits for nothing.
    ready: Vec<usize>,
}

impl Waits {
    fn new(nodes: usize) -> Waits {
        Waits {
            alternatives: Vec::new(),
            waiting: vec![Vec::new(); nodes],
            ready: Vec::new(),
        }
    }

    fn add(&mut self, owner: usize, items: &[Item]) {
        let barred = |item: &Item| matches!(item, Item::Symbol { optional: false });
        if items.iter().any(barred) {
            return;
        }
        let mut needed = 0;
        for item in items {
            if let Item::Node {
                node,
                optional: false,
            } = item
            {
                self.waiting[*node].push(self.alternatives.len());
                needed += 1;
            }
        }
        self.alternatives.push((owner, needed));
        if needed == 0 {
            self.ready.push(owner);
        }
    }

    fn met(&mut self, node: usize) {
        for place in std::mem::take(&mut self.waiting[node]) {
            let (owner, needed) = &mut self.alternatives[place];
            *needed -= 1;
            if *needed == 0 {
                self.ready.push(*owner);
            }
        }
    }
}
