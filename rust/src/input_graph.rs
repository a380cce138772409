//! The graph that is handed in.

use std::fmt;

use crate::constants::{NodeId, Weight};
use crate::error::{narrow, Error, Refusal};

/// Edges as they are added, and after [`freeze`](InputGraph::freeze) as a build takes them.
///
/// The nodes are 0 to the largest that an edge names.
#[derive(Clone, Default)]
pub struct InputGraph {
    edges: Vec<Edge>,
    num_nodes: usize,
    frozen: bool,
}

impl InputGraph {
    pub fn new() -> Self {
        Self::default()
    }

    /// Adds an edge, and says how many were added: 1.
    ///
    /// An edge from a node to itself ([`Refusal::Loop`]), one that weighs nothing ([`Refusal::ZeroWeight`]) and one with a number of more
    /// than 32 bits ([`Error::TooWide`]) is not added, and the graph is as it was: who ignores the error skips the edge, as fast_paths
    /// does with the first two.
    pub fn add_edge(&mut self, from: NodeId, to: NodeId, weight: Weight) -> Result<usize, Error> {
        self.check_edge(from, to, weight)?;
        self.num_nodes = self.num_nodes.max(from + 1).max(to + 1);
        self.edges.push(Edge::new(from, to, weight));
        Ok(1)
    }

    /// Adds an edge in both directions, and says how many were added: 2. Both or neither is added.
    pub fn add_edge_bidir(&mut self, from: NodeId, to: NodeId, weight: Weight) -> Result<usize, Error> {
        Ok(self.add_edge(from, to, weight)? + self.add_edge(to, from, weight)?)
    }

    /// The edges, ascending, of a frozen graph.
    pub fn get_edges(&self) -> Result<&Vec<Edge>, Error> {
        self.check_frozen()?;
        Ok(&self.edges)
    }

    pub fn get_num_nodes(&self) -> Result<usize, Error> {
        self.check_frozen()?;
        Ok(self.num_nodes)
    }

    pub fn get_num_edges(&self) -> Result<usize, Error> {
        self.check_frozen()?;
        Ok(self.edges.len())
    }

    /// Sorts the edges, and of those with the same ends keeps the one that weighs least. Nothing can be added afterwards.
    pub fn freeze(&mut self) -> Result<(), Error> {
        self.check_open()?;
        self.edges.sort_unstable_by_key(|e| (e.from, e.to, e.weight));
        self.edges.dedup_by_key(|e| (e.from, e.to));
        self.frozen = true;
        Ok(())
    }

    /// Tails, heads and weights of a frozen graph.
    pub(crate) fn columns(&self) -> Result<[Vec<u32>; 3], Error> {
        let edges = self.get_edges()?;
        let column = |what, number: fn(&Edge) -> usize| edges.iter().map(|e| narrow(what, number(e))).collect::<Result<_, _>>();
        Ok([column(NODE, |e| e.from)?, column(NODE, |e| e.to)?, column(WEIGHT, |e| e.weight)?])
    }

    fn check_edge(&self, from: NodeId, to: NodeId, weight: Weight) -> Result<(), Error> {
        self.check_open()?;
        narrow(NODE, from)?;
        narrow(NODE, to)?;
        narrow(WEIGHT, weight)?;
        if from == to {
            return Err(Refusal::Loop.into());
        }
        if weight == 0 {
            return Err(Refusal::ZeroWeight.into());
        }
        Ok(())
    }

    fn check_open(&self) -> Result<(), Error> {
        if self.frozen {
            return Err(Error::Frozen);
        }
        Ok(())
    }

    fn check_frozen(&self) -> Result<(), Error> {
        if !self.frozen {
            return Err(Error::NotFrozen);
        }
        Ok(())
    }
}

const NODE: &str = "node";
const WEIGHT: &str = "weight";

/// The edges as calls that add them.
impl fmt::Debug for InputGraph {
    fn fmt(&self, f: &mut fmt::Formatter) -> fmt::Result {
        for e in &self.edges {
            writeln!(f, "g.add_edge({}, {}, {});", e.from, e.to, e.weight)?;
        }
        Ok(())
    }
}

#[derive(Debug, Copy, Clone, PartialEq, Eq, Hash)]
pub struct Edge {
    pub from: NodeId,
    pub to: NodeId,
    pub weight: Weight,
}

impl Edge {
    pub fn new(from: NodeId, to: NodeId, weight: Weight) -> Edge {
        Edge { from, to, weight }
    }
}
