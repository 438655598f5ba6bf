//! The stand-in's components against reachability.

use std::collections::BTreeSet;

use petgraph::algo::tarjan_scc;
use petgraph::graph::DiGraph;

/// Small numbers from a seed (a linear congruence).
struct Numbers(u32);

impl Numbers {
    fn below(&mut self, bound: u32) -> usize {
        self.0 = self.0.wrapping_mul(1_664_525).wrapping_add(1_013_904_223);
        ((self.0 >> 8) % bound) as usize
    }
}

/// `reach[i][j]`: j is reached from i, or is i.
fn closure(nodes: usize, edges: &[(usize, usize)]) -> Vec<Vec<bool>> {
    let mut reach: Vec<Vec<bool>> = (0..nodes)
        .map(|from| (0..nodes).map(|to| from == to).collect())
        .collect();
    for (from, to) in edges {
        reach[*from][*to] = true;
    }
    for through in 0..nodes {
        for from in 0..nodes {
            for to in 0..nodes {
                reach[from][to] |= reach[from][through] && reach[through][to];
            }
        }
    }
    reach
}

fn expected(nodes: usize, edges: &[(usize, usize)]) -> BTreeSet<Vec<usize>> {
    let reach = closure(nodes, edges);
    let component = |node: usize| {
        (0..nodes)
            .filter(|other| reach[node][*other] && reach[*other][node])
            .collect()
    };
    (0..nodes).map(component).collect()
}

fn found(nodes: usize, edges: &[(usize, usize)]) -> BTreeSet<Vec<usize>> {
    let mut graph = DiGraph::<usize, ()>::new();
    let places: Vec<_> = (0..nodes).map(|node| graph.add_node(node)).collect();
    for (from, to) in edges {
        graph.add_edge(places[*from], places[*to], ());
    }
    let components = tarjan_scc(&graph).into_iter().map(|component| {
        let mut members: Vec<usize> = component.into_iter().map(|node| graph[node]).collect();
        members.sort_unstable();
        members
    });
    components.collect()
}

#[test]
fn components_are_the_sets_of_nodes_that_reach_each_other() {
    let mut numbers = Numbers(1);
    for _ in 0..3_000 {
        let nodes = 1 + numbers.below(9);
        let many = numbers.below(16);
        let mut one = || (numbers.below(nodes as u32), numbers.below(nodes as u32));
        let edges: Vec<_> = (0..many).map(|_| one()).collect();
        assert_eq!(found(nodes, &edges), expected(nodes, &edges), "{edges:?}");
    }
}

#[test]
fn an_edge_is_found_in_its_own_direction() {
    let mut graph = DiGraph::<u8, ()>::new();
    let (one, two) = (graph.add_node(1), graph.add_node(2));
    graph.add_edge(one, two, ());
    assert!(graph.find_edge(one, two).is_some());
    assert!(graph.find_edge(two, one).is_none());
    assert!(graph.find_edge(one, one).is_none());
}
