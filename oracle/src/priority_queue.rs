//! Stand-in for the crate `priority_queue`: the greatest priority leaves first, ties by smaller node
//! (request 1 of document 02).

use crate::constants::NodeId;
use std::cmp::Reverse;
use std::collections::{BTreeSet, HashMap};

pub struct PriorityQueue<P> {
    sorted: BTreeSet<(P, Reverse<NodeId>)>,
    priorities: HashMap<NodeId, P>,
}

impl<P: Ord + Copy> PriorityQueue<P> {
    pub fn new() -> Self {
        PriorityQueue { sorted: BTreeSet::new(), priorities: HashMap::new() }
    }

    pub fn is_empty(&self) -> bool {
        self.sorted.is_empty()
    }

    pub fn push(&mut self, node: NodeId, priority: P) {
        self.sorted.insert((priority, Reverse(node)));
        self.priorities.insert(node, priority);
    }

    pub fn pop(&mut self) -> Option<(NodeId, P)> {
        let (priority, Reverse(node)) = self.sorted.pop_last()?;
        self.priorities.remove(&node);
        Some((node, priority))
    }

    pub fn change_priority(&mut self, node: &NodeId, priority: P) {
        let before = self.priorities[node];
        self.sorted.remove(&(before, Reverse(*node)));
        self.push(*node, priority);
    }
}
