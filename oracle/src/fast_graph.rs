//! Stand-in: the hierarchy. A table's entries are grouped by the rank of their base; the group of
//! rank r lies between starts r and r + 1.

use crate::constants::{EdgeId, NodeId, Weight, INVALID_EDGE};

#[derive(Default)]
pub struct FastGraph {
    pub ranks: Vec<usize>,
    pub edges_fwd: Vec<FastGraphEdge>,
    pub first_edge_ids_fwd: Vec<EdgeId>,
    pub edges_bwd: Vec<FastGraphEdge>,
    pub first_edge_ids_bwd: Vec<EdgeId>,
}

impl FastGraph {
    pub fn new(num_nodes: usize) -> Self {
        FastGraph {
            ranks: vec![0; num_nodes],
            edges_fwd: Vec::new(),
            first_edge_ids_fwd: vec![0; num_nodes + 1],
            edges_bwd: Vec::new(),
            first_edge_ids_bwd: vec![0; num_nodes + 1],
        }
    }

    pub fn get_num_nodes(&self) -> usize {
        self.ranks.len()
    }

    pub fn get_num_out_edges(&self) -> usize {
        self.edges_fwd.len()
    }

    pub fn get_num_in_edges(&self) -> usize {
        self.edges_bwd.len()
    }

    pub fn begin_out_edges(&self, node: NodeId) -> EdgeId {
        self.first_edge_ids_fwd[self.ranks[node]]
    }

    pub fn end_out_edges(&self, node: NodeId) -> EdgeId {
        self.first_edge_ids_fwd[self.ranks[node] + 1]
    }

    pub fn begin_in_edges(&self, node: NodeId) -> EdgeId {
        self.first_edge_ids_bwd[self.ranks[node]]
    }

    pub fn end_in_edges(&self, node: NodeId) -> EdgeId {
        self.first_edge_ids_bwd[self.ranks[node] + 1]
    }
}

#[derive(Clone, Copy)]
pub struct FastGraphEdge {
    pub base_node: NodeId,
    pub adj_node: NodeId,
    pub weight: Weight,
    pub replaced_in_edge: EdgeId,
    pub replaced_out_edge: EdgeId,
}

impl FastGraphEdge {
    pub fn new(
        base_node: NodeId,
        adj_node: NodeId,
        weight: Weight,
        replaced_in_edge: EdgeId,
        replaced_out_edge: EdgeId,
    ) -> Self {
        FastGraphEdge { base_node, adj_node, weight, replaced_in_edge, replaced_out_edge }
    }

    /// The table rules allow no entry with only one of its two numbers.
    pub fn is_shortcut(&self) -> bool {
        self.replaced_in_edge != INVALID_EDGE
    }
}
