//! Components of many graphs, sorted as the original sorts them. Built once with
//! the stand-in and once with petgraph; the two must print the same.

use petgraph::algo::tarjan_scc;
use petgraph::graph::DiGraph;

struct Numbers(u64);

impl Numbers {
    fn below(&mut self, bound: usize) -> usize {
        self.0 = self
            .0
            .wrapping_mul(6_364_136_223_846_793_005)
            .wrapping_add(1);
        (self.0 >> 33) as usize % bound
    }
}

fn main() {
    let mut numbers = Numbers(1);
    for _ in 0..40_000 {
        let most = if numbers.below(20) == 0 { 128 } else { 12 };
        let nodes = 1 + numbers.below(most);
        let edges = numbers.below(2 * nodes + 1);
        let mut graph = DiGraph::<usize, ()>::new();
        let places: Vec<_> = (0..nodes).map(|node| graph.add_node(node)).collect();
        let mut found = 0;
        for _ in 0..edges {
            let (from, to) = (places[numbers.below(nodes)], places[numbers.below(nodes)]);
            graph.add_edge(from, to, ());
            let (from, to) = (places[numbers.below(nodes)], places[numbers.below(nodes)]);
            found += usize::from(graph.find_edge(from, to).is_some());
        }
        println!("{found} {:?}", components(&graph));
    }
}

fn components(graph: &DiGraph<usize, ()>) -> Vec<Vec<usize>> {
    let all = tarjan_scc(graph).into_iter().map(|component| {
        let mut members: Vec<usize> = component.into_iter().map(|node| graph[node]).collect();
        members.sort_unstable();
        members
    });
    let mut all: Vec<_> = all.collect();
    all.sort();
    all
}
