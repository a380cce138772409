//! Stand-in: which labels belong to the current search. A flag is valid if it carries the current
//! stamp, so that a new search costs nothing.

use crate::constants::NodeId;

pub struct ValidFlags {
    stamps: Vec<u32>,
    current: u32,
}

impl ValidFlags {
    pub fn new(num_nodes: usize) -> Self {
        ValidFlags { stamps: vec![0; num_nodes], current: 1 }
    }

    pub fn is_valid(&self, node: NodeId) -> bool {
        self.stamps[node] == self.current
    }

    pub fn set_valid(&mut self, node: NodeId) {
        self.stamps[node] = self.current;
    }

    pub fn invalidate_all(&mut self) {
        if self.current == u32::MAX {
            self.stamps.fill(0);
            self.current = 0;
        }
        self.current += 1;
    }
}
