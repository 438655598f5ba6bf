use crate::graph::{DiGraph, NodeIndex};

/// Tarjan 1972. Components come in the order in which they are closed.
pub fn tarjan_scc<N, E>(graph: &DiGraph<N, E>) -> Vec<Vec<NodeIndex>> {
    let mut search = Search {
        graph,
        number: vec![None; graph.node_count()],
        closed: vec![false; graph.node_count()],
        next: 0,
        open: Vec::new(),
        components: Vec::new(),
    };
    for node in 0..graph.node_count() {
        if search.number[node].is_none() {
            search.visit(NodeIndex(node));
        }
    }
    search.components
}

struct Search<'a, N, E> {
    graph: &'a DiGraph<N, E>,
    number: Vec<Option<usize>>,
    closed: Vec<bool>,
    next: usize,
    open: Vec<NodeIndex>,
    components: Vec<Vec<NodeIndex>>,
}

impl<N, E> Search<'_, N, E> {
    /// The least number reached from `node` among nodes whose component is open.
    fn visit(&mut self, node: NodeIndex) -> usize {
        let own = self.next;
        self.next += 1;
        self.number[node.0] = Some(own);
        self.open.push(node);
        let mut least = own;
        for &target in self.graph.successors(node) {
            let reached = match self.number[target.0] {
                None => self.visit(target),
                Some(number) if !self.closed[target.0] => number,
                Some(_) => continue,
            };
            least = least.min(reached);
        }
        if least == own {
            self.close(node);
        }
        least
    }

    fn close(&mut self, root: NodeIndex) {
        let start = self
            .open
            .iter()
            .position(|node| *node == root)
            .expect("the root of a component is open");
        let component = self.open.split_off(start);
        for node in &component {
            self.closed[node.0] = true;
        }
        self.components.push(component);
    }
}
