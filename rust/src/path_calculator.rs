//! Queries, over buffers that are kept from one to the next.

use crate::constants::{NodeId, Weight, MAX_ENDS, MAX_NODES, WEIGHT_ZERO};
use crate::error::{answered, narrow, Error};
use crate::fast_graph::{over_tables, FastGraph, Table};
use crate::proved::{ratmanoep_calc_path, ratmanoep_calc_paths};
use crate::shortest_path::ShortestPath;

/// What a query works in. One calculator serves any graph, whose buffers grow as they must; use one for each thread.
#[derive(Clone, Debug, Default)]
pub struct PathCalculator {
    path: Vec<u32>,
    fwd: Side,
    bwd: Side,
}

/// Pairs of one call: their walks take 4 MB at most.
const PAIRS: usize = 1_024;

/// A node for a column, or one that no graph has, whose answer is not looked at.
fn stand_in(node: NodeId) -> u32 {
    u32::try_from(node).unwrap_or(u32::MAX)
}

/// What one direction of a search works in.
#[derive(Clone, Debug, Default)]
struct Side {
    labels: Vec<u64>,
    heap: Vec<u64>,
}

impl Side {
    /// The lengths of docs/SCRATCH.md.
    fn fit(&mut self, n: usize, table: &Table) {
        grow(&mut self.labels, 4 * n);
        grow(&mut self.heap, 2 * (table.used() + MAX_ENDS));
    }
}

fn grow<T: Clone + Default>(buffer: &mut Vec<T>, places: usize) {
    if buffer.len() < places {
        buffer.resize(places, T::default());
    }
}

/// Sources or targets in the library's widths.
fn ends(given: Vec<(NodeId, Weight)>) -> Result<(Vec<u32>, Vec<u64>), Error> {
    let nodes = nodes(given.iter().map(|&(node, _)| node))?;
    Ok((nodes, given.iter().map(|&(_, offset)| offset as u64).collect()))
}

fn nodes(given: impl Iterator<Item = NodeId>) -> Result<Vec<u32>, Error> {
    given.map(|node| narrow("node", node)).collect()
}

impl PathCalculator {
    /// Buffers for graphs of so many nodes.
    pub fn new(num_nodes: usize) -> Self {
        let mut calculator = PathCalculator::default();
        let n = num_nodes.min(MAX_NODES);
        calculator.path.reserve(n);
        calculator.fwd.fit(n, &Table::default());
        calculator.bwd.fit(n, &Table::default());
        calculator
    }

    /// The least-weight route from one node to another, or none; refusal 22 for a node that the graph does not have.
    pub fn calc_path(&mut self, graph: &FastGraph, start: NodeId, end: NodeId) -> Result<Option<ShortestPath>, Error> {
        self.calc_path_multiple_sources_and_targets(graph, vec![(start, WEIGHT_ZERO)], vec![(end, WEIGHT_ZERO)])
    }

    /// The least-weight route from any of 1 to 16 nodes to any of 1 to 16 nodes, or none.
    ///
    /// Each has an offset that its routes weigh more: 0 to 2^40, or [`WEIGHT_MAX`](crate::WEIGHT_MAX) for one that does not count. Refusals:
    /// 21 none or more than 16, 22 a node that the graph does not have, 23 an offset above 2^40.
    pub fn calc_path_multiple_sources_and_targets(
        &mut self,
        graph: &FastGraph,
        starts: Vec<(NodeId, Weight)>,
        ends: Vec<(NodeId, Weight)>,
    ) -> Result<Option<ShortestPath>, Error> {
        let (sources, source_offsets) = self::ends(starts)?;
        let (targets, target_offsets) = self::ends(ends)?;
        let n = self.fit(graph, 1);
        let (mut number, mut weight) = (0, 0);
        let length = over_tables!(
            ratmanoep_calc_path,
            n,
            &graph.tables,
            &sources,
            &source_offsets,
            &targets,
            &target_offsets,
            &mut self.path,
            &mut number,
            &mut weight,
            &mut self.fwd.labels,
            &mut self.bwd.labels,
            &mut self.fwd.heap,
            &mut self.bwd.heap,
        );
        answered(number)?;
        Ok(self.path.get(..length).and_then(|walk| ShortestPath::along(walk, weight)))
    }

    /// The least-weight route of each pair of a source and a target, in their order: each an answer as of [`calc_path`](Self::calc_path).
    ///
    /// The tables are checked once for every 1,024 pairs, which makes many routes cheaper than one by one.
    pub fn calc_paths(&mut self, graph: &FastGraph, pairs: &[(NodeId, NodeId)]) -> Vec<Result<Option<ShortestPath>, Error>> {
        pairs.chunks(PAIRS).flat_map(|pairs| self.calc_some_paths(graph, pairs)).collect()
    }

    /// The same by one call.
    fn calc_some_paths(&mut self, graph: &FastGraph, pairs: &[(NodeId, NodeId)]) -> Vec<Result<Option<ShortestPath>, Error>> {
        let column = |end: fn(&(NodeId, NodeId)) -> NodeId| pairs.iter().map(|pair| stand_in(end(pair))).collect::<Vec<u32>>();
        let (mut numbers, mut weights, mut lengths) = (vec![0; pairs.len()], vec![0; pairs.len()], vec![0; pairs.len()]);
        let n = self.fit(graph, pairs.len());
        let whole = answered(over_tables!(
            ratmanoep_calc_paths,
            n,
            &graph.tables,
            &column(|pair| pair.0),
            &column(|pair| pair.1),
            &mut numbers,
            &mut weights,
            &mut lengths,
            &mut self.path,
            &mut self.fwd.labels,
            &mut self.bwd.labels,
            &mut self.fwd.heap,
            &mut self.bwd.heap,
        ));
        let answer = |(k, pair): (usize, &(NodeId, NodeId))| {
            nodes([pair.0, pair.1].into_iter())?;
            whole?;
            answered(numbers[k])?;
            let walk = self.path.get(k * n..k * n + lengths[k] as usize);
            Ok(walk.and_then(|walk| ShortestPath::along(walk, weights[k])))
        };
        pairs.iter().enumerate().map(answer).collect()
    }

    /// Buffers for walks of so many queries of the graph, the path no longer than that: what is too long for it does not depend on graphs
    /// before. Answers the node count.
    fn fit(&mut self, graph: &FastGraph, queries: usize) -> usize {
        let n = graph.get_num_nodes();
        self.path.resize(queries * n, 0);
        self.fwd.fit(n, &graph.tables.fwd);
        self.bwd.fit(n, &graph.tables.bwd);
        n
    }
}
