//! Stand-in: an answer of the query that is not "none".

use crate::constants::{NodeId, Weight};

pub struct ShortestPath {
    pub weight: Weight,
    pub nodes: Vec<NodeId>,
}

impl ShortestPath {
    /// The walk's ends are its first and last node, so they are not kept again.
    pub fn new(_source: NodeId, _target: NodeId, weight: Weight, nodes: Vec<NodeId>) -> Self {
        ShortestPath { weight, nodes }
    }
}
