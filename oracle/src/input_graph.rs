//! Stand-in: the links as given. Nothing is sorted, merged or dropped.

use crate::constants::{NodeId, Weight};

#[derive(Clone, Copy)]
pub struct Edge {
    pub from: NodeId,
    pub to: NodeId,
    pub weight: Weight,
}

pub struct InputGraph {
    num_nodes: usize,
    edges: Vec<Edge>,
}

impl InputGraph {
    pub fn new(num_nodes: usize, edges: Vec<Edge>) -> Self {
        InputGraph { num_nodes, edges }
    }

    pub fn get_num_nodes(&self) -> usize {
        self.num_nodes
    }

    pub fn get_edges(&self) -> &[Edge] {
        &self.edges
    }
}
