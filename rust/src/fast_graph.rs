//! The hierarchy.

use crate::constants::NodeId;
use crate::error::{answered, Error};
use crate::proved::ratmanoep_check_tables;

/// A graph prepared for queries: a hierarchy that a build made, or one that passed the table check.
#[derive(Clone, Debug, PartialEq, Eq)]
pub struct FastGraph {
    num_nodes: usize,
    pub(crate) tables: Tables,
}

/// A hierarchy in columns: the rank of each node, and a table for each direction.
///
/// They can be stored and read back in whatever form: [`FastGraph::from_tables`] trusts nothing.
#[derive(Clone, Debug, Default, PartialEq, Eq)]
pub struct Tables {
    pub ranks: Vec<u32>,
    pub fwd: Table,
    pub bwd: Table,
}

/// One direction: where each rank's entries start, and of each entry its base, neighbour, weight, and the backward and the forward entry
/// that it stands for, `u32::MAX` in both where it is an edge of the graph.
#[derive(Clone, Debug, Default, PartialEq, Eq)]
pub struct Table {
    pub starts: Vec<u32>,
    pub bases: Vec<u32>,
    pub neighbours: Vec<u32>,
    pub weights: Vec<u64>,
    pub ins: Vec<u32>,
    pub outs: Vec<u32>,
}

/// Calls a function of the library that reads a hierarchy of n nodes: its columns, then what else it takes.
macro_rules! over_tables {
    ($function:ident, $n:expr, $tables:expr $(, $more:expr)* $(,)?) => {{
        let $crate::Tables { ranks, fwd, bwd } = $tables;
        $function(
            $n,
            ranks,
            &fwd.starts,
            &fwd.bases,
            &fwd.neighbours,
            &fwd.weights,
            &fwd.ins,
            &fwd.outs,
            &bwd.starts,
            &bwd.bases,
            &bwd.neighbours,
            &bwd.weights,
            &bwd.ins,
            &bwd.outs,
            $($more,)*
        )
    }};
}
pub(crate) use over_tables;

impl Tables {
    /// Room for a hierarchy of n nodes with so many entries each way.
    pub(crate) fn with_room(n: usize, entries: usize) -> Tables {
        Tables {
            ranks: vec![0; n],
            fwd: Table::with_room(n, entries),
            bwd: Table::with_room(n, entries),
        }
    }

    /// Leaves what is used of columns that a build filled or the check passed.
    pub(crate) fn cut(&mut self, n: usize) {
        cut(&mut self.ranks, n);
        self.fwd.cut(n);
        self.bwd.cut(n);
    }

    /// Refusal 20 where a table rule is broken.
    fn check(&self, n: usize) -> Result<(), Error> {
        answered(over_tables!(ratmanoep_check_tables, n, self))
    }
}

impl Table {
    fn with_room(n: usize, entries: usize) -> Table {
        Table {
            starts: vec![0; n + 1],
            bases: vec![0; entries],
            neighbours: vec![0; entries],
            weights: vec![0; entries],
            ins: vec![0; entries],
            outs: vec![0; entries],
        }
    }

    fn cut(&mut self, n: usize) {
        cut(&mut self.starts, n + 1);
        let used = self.used();
        cut(&mut self.bases, used);
        cut(&mut self.neighbours, used);
        cut(&mut self.weights, used);
        cut(&mut self.ins, used);
        cut(&mut self.outs, used);
    }

    /// Used entries of a table that was cut.
    pub(crate) fn used(&self) -> usize {
        self.starts.last().map_or(0, |&end| end as usize)
    }
}

fn cut<T>(column: &mut Vec<T>, used: usize) {
    column.truncate(used);
    column.shrink_to_fit();
}

impl FastGraph {
    /// A hierarchy of so many nodes from its columns, which may be longer than what is used; or refusal 20.
    ///
    /// For columns that pass but that no build made, a query's answer is fixed by the rules, and is not claimed to be a least weight.
    pub fn from_tables(num_nodes: usize, tables: Tables) -> Result<FastGraph, Error> {
        tables.check(num_nodes)?;
        Ok(FastGraph::of_passed(num_nodes, tables))
    }

    /// The hierarchy in columns that are known to pass the check.
    pub(crate) fn of_passed(num_nodes: usize, mut tables: Tables) -> FastGraph {
        tables.cut(num_nodes);
        FastGraph { num_nodes, tables }
    }

    /// The columns, to store them.
    pub fn tables(&self) -> &Tables {
        &self.tables
    }

    /// The nodes by rank: an order to prepare a similar graph with.
    pub fn get_node_ordering(&self) -> Vec<NodeId> {
        let mut ordering: Vec<NodeId> = (0..self.num_nodes).collect();
        ordering.sort_unstable_by_key(|&node| self.tables.ranks.get(node));
        ordering
    }

    pub fn get_num_nodes(&self) -> usize {
        self.num_nodes
    }

    /// Entries of the forward table.
    pub fn get_num_out_edges(&self) -> usize {
        self.tables.fwd.used()
    }

    /// Entries of the backward table.
    pub fn get_num_in_edges(&self) -> usize {
        self.tables.bwd.used()
    }
}
