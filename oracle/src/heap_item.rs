//! Stand-in: what the heaps hold. `BinaryHeap` hands out the greatest item, so the order is turned
//! round: the smallest weight leaves first, ties by smaller node.

use crate::constants::{NodeId, Weight};
use std::cmp::Ordering;

#[derive(Clone, Copy, PartialEq, Eq)]
pub struct HeapItem {
    pub weight: Weight,
    pub node_id: NodeId,
}

impl HeapItem {
    pub fn new(weight: Weight, node_id: NodeId) -> Self {
        HeapItem { weight, node_id }
    }
}

impl Ord for HeapItem {
    fn cmp(&self, other: &Self) -> Ordering {
        (other.weight, other.node_id).cmp(&(self.weight, self.node_id))
    }
}

impl PartialOrd for HeapItem {
    fn partial_cmp(&self, other: &Self) -> Option<Ordering> {
        Some(self.cmp(other))
    }
}
