use std::ops::Index;

#[derive(Clone, Copy, Debug, Eq, Ord, PartialEq, PartialOrd)]
pub struct NodeIndex(pub(crate) usize);

#[derive(Clone, Copy, Debug, Eq, PartialEq)]
pub struct EdgeIndex(usize);

#[derive(Debug, Default)]
pub struct DiGraph<N, E> {
    nodes: Vec<N>,
    edges: Vec<(NodeIndex, NodeIndex, E)>,
    successors: Vec<Vec<NodeIndex>>,
}

impl<N, E> DiGraph<N, E> {
    pub fn new() -> Self {
        Self {
            nodes: Vec::new(),
            edges: Vec::new(),
            successors: Vec::new(),
        }
    }

    pub fn add_node(&mut self, weight: N) -> NodeIndex {
        self.nodes.push(weight);
        self.successors.push(Vec::new());
        NodeIndex(self.nodes.len() - 1)
    }

    pub fn add_edge(&mut self, from: NodeIndex, to: NodeIndex, weight: E) -> EdgeIndex {
        self.edges.push((from, to, weight));
        self.successors[from.0].push(to);
        EdgeIndex(self.edges.len() - 1)
    }

    pub fn find_edge(&self, from: NodeIndex, to: NodeIndex) -> Option<EdgeIndex> {
        let place = self
            .edges
            .iter()
            .position(|edge| edge.0 == from && edge.1 == to);
        place.map(EdgeIndex)
    }

    pub(crate) fn node_count(&self) -> usize {
        self.nodes.len()
    }

    pub(crate) fn successors(&self, node: NodeIndex) -> &[NodeIndex] {
        &self.successors[node.0]
    }
}

impl<N, E> Index<NodeIndex> for DiGraph<N, E> {
    type Output = N;

    fn index(&self, node: NodeIndex) -> &N {
        &self.nodes[node.0]
    }
}
