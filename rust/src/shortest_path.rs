//! A route.

use crate::constants::{NodeId, Weight, WEIGHT_MAX, WEIGHT_ZERO};

/// A least-weight route: where it starts and ends, what it weighs, and its nodes.
#[derive(Debug, Clone)]
pub struct ShortestPath {
    source: NodeId,
    target: NodeId,
    weight: Weight,
    nodes: Vec<NodeId>,
}

/// Two routes are equal if their ends and weights are: there may be several of the same weight.
impl PartialEq for ShortestPath {
    fn eq(&self, other: &ShortestPath) -> bool {
        self.source == other.source && self.target == other.target && self.weight == other.weight
    }
}

impl ShortestPath {
    pub fn new(source: NodeId, target: NodeId, weight: Weight, nodes: Vec<NodeId>) -> Self {
        ShortestPath {
            source,
            target,
            weight,
            nodes,
        }
    }

    pub fn singular(node: NodeId) -> Self {
        ShortestPath::new(node, node, WEIGHT_ZERO, vec![node])
    }

    pub fn none(source: NodeId, target: NodeId) -> Self {
        ShortestPath::new(source, target, WEIGHT_MAX, vec![])
    }

    /// The route along a walk, or none where the walk is empty.
    pub(crate) fn along(walk: &[u32], weight: u64) -> Option<Self> {
        let (source, target) = (*walk.first()?, *walk.last()?);
        let nodes = walk.iter().map(|&node| node as NodeId).collect();
        Some(ShortestPath::new(source as NodeId, target as NodeId, weight as Weight, nodes))
    }

    pub fn get_source(&self) -> NodeId {
        self.source
    }

    pub fn get_target(&self) -> NodeId {
        self.target
    }

    /// Offsets of source and target included.
    pub fn get_weight(&self) -> Weight {
        self.weight
    }

    pub fn get_nodes(&self) -> &Vec<NodeId> {
        &self.nodes
    }

    pub fn is_found(&self) -> bool {
        self.weight != WEIGHT_MAX
    }
}
