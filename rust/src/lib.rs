//! Least-weight routes over networks of at most 1,024 nodes, by contraction hierarchies, with the names of
//! [fast_paths](https://github.com/easbar/fast_paths) 1.0.0. The work is done by a library that is proved: a route that it answers is a
//! least-weight walk over the edges, none means that there is none, every call ends, and whatever is handed in, bad input is an error
//! and never a panic.
//!
//! ```
//! use ratmanoep::{calc_path, prepare_with_order, InputGraph};
//!
//! # fn main() -> Result<(), ratmanoep::Error> {
//! let mut graph = InputGraph::new();
//! graph.add_edge(0, 1, 2)?;
//! graph.add_edge(1, 2, 3)?;
//! graph.freeze()?;
//!
//! let fast_graph = prepare_with_order(&graph, &[1, 0, 2])?;
//! let path = calc_path(&fast_graph, 0, 2)?.expect("there is a route");
//! assert_eq!(path.get_weight(), 5);
//! assert_eq!(path.get_nodes(), &[0, 1, 2]);
//! assert_eq!(calc_path(&fast_graph, 2, 0)?, None);
//!
//! let error = calc_path(&fast_graph, 0, 7).expect_err("there is no node 7");
//! assert_eq!(error.number(), Some(22));
//! assert_eq!(error.to_string(), "refused 22: a source or target not below the node count");
//! # Ok(())
//! # }
//! ```
//!
//! # What differs from fast_paths
//!
//! - What can be refused answers a [`Result`]: an [`Error`], most often a [`Refusal`] with a number. Nothing panics.
//! - An order names each node once, or is refused (8); fast_paths tests its length only.
//! - At most 1,024 nodes, 16,384 edges, and 16 sources and targets of a query. Ids and weights of edges have at most 32 bits.
//! - Of equal weights in a heap the smaller node leaves first, so that the same calls give the same routes everywhere.
//! - Left out: `prepare` and `prepare_with_params` with `Params` (an order is always given), `FastGraphBuilder`, `FastGraph32` and
//!   serialisation ([`FastGraph::tables`] and [`FastGraph::from_tables`] have the columns), `InputGraph::thaw`, reading and writing files,
//!   `FastGraph::new` and what walks along its edges, logging.
//! - Added: [`calc_paths`], [`Tables`], [`answer_records`].
//!
//! # What it needs
//!
//! x86-64 Linux, and `libratmanoep.a`, which `rt lib` in crates/ratmanoep of the repository proves and writes to its out; `RATMANOEP_LIB`
//! names another folder. As measured with an older
//! kit, a query may use 230 KB of stack (a line of 1,024 nodes), [`answer_records`] 130 KB.

pub use crate::constants::*;
pub use crate::error::{Error, Refusal};
pub use crate::fast_graph::{FastGraph, Table, Tables};
pub use crate::fast_graph_builder::ParamsWithOrder;
pub use crate::input_graph::{Edge, InputGraph};
pub use crate::path_calculator::PathCalculator;
pub use crate::records::answer_records;
pub use crate::shortest_path::ShortestPath;

mod constants;
mod error;
mod fast_graph;
mod fast_graph_builder;
mod input_graph;
mod path_calculator;
mod proved;
mod records;
mod shortest_path;

/// Prepares a frozen graph for queries, in an order that names each node once: the first is contracted first.
///
/// Refusals: 1 more than 1,024 nodes, 2 more than 16,384 edges, 7 an order of another length than the node count, 8 an order with a node
/// twice or beyond the count, 12 two edges through a node that weigh more than 2^40 together where
/// no other way of at most that weight was found, and no edge of at most that weight joins the same ends.
///
/// ```
/// # use ratmanoep::{prepare_with_order, Error, InputGraph, Refusal};
/// # fn main() -> Result<(), Error> {
/// let mut graph = InputGraph::new();
/// graph.add_edge_bidir(0, 1, 5)?;
/// graph.freeze()?;
/// assert_eq!(prepare_with_order(&graph, &[0, 0]), Err(Error::Refused(Refusal::OrderNode)));
/// # Ok(())
/// # }
/// ```
pub fn prepare_with_order(input_graph: &InputGraph, order: &[NodeId]) -> Result<FastGraph, Error> {
    prepare_with_order_with_params(input_graph, order, &ParamsWithOrder::default())
}

/// Like [`prepare_with_order`], with a settled limit of the caller's.
pub fn prepare_with_order_with_params(input_graph: &InputGraph, order: &[NodeId], params: &ParamsWithOrder) -> Result<FastGraph, Error> {
    fast_graph_builder::build(input_graph, order, params)
}

/// The least-weight route from one node to another, or none. For more than one query use [`create_calculator`].
pub fn calc_path(fast_graph: &FastGraph, source: NodeId, target: NodeId) -> Result<Option<ShortestPath>, Error> {
    create_calculator(fast_graph).calc_path(fast_graph, source, target)
}

/// The least-weight route from any of the sources to any of the targets, or none: see
/// [`PathCalculator::calc_path_multiple_sources_and_targets`].
///
/// ```
/// # use ratmanoep::{calc_path_multiple_sources_and_targets, prepare_with_order, Error, InputGraph};
/// # fn main() -> Result<(), Error> {
/// # let mut graph = InputGraph::new();
/// # graph.add_edge(0, 1, 2)?;
/// # graph.add_edge(1, 2, 3)?;
/// # graph.freeze()?;
/// # let fast_graph = prepare_with_order(&graph, &[1, 0, 2])?;
/// // from 0 at 10 or from 1 at 4, to 2
/// let path = calc_path_multiple_sources_and_targets(&fast_graph, vec![(0, 10), (1, 4)], vec![(2, 0)])?.expect("there is a route");
/// assert_eq!((path.get_weight(), path.get_nodes()), (7, &vec![1, 2]));
/// # Ok(())
/// # }
/// ```
pub fn calc_path_multiple_sources_and_targets(
    fast_graph: &FastGraph,
    sources: Vec<(NodeId, Weight)>,
    target: Vec<(NodeId, Weight)>,
) -> Result<Option<ShortestPath>, Error> {
    create_calculator(fast_graph).calc_path_multiple_sources_and_targets(fast_graph, sources, target)
}

/// The least-weight route of each pair of a source and a target, or none: many routes after one check of the tables.
///
/// ```
/// # use ratmanoep::{calc_paths, prepare_with_order, Error, InputGraph};
/// # fn main() -> Result<(), Error> {
/// # let mut graph = InputGraph::new();
/// # graph.add_edge(0, 1, 2)?;
/// # graph.add_edge(1, 2, 3)?;
/// # graph.freeze()?;
/// # let fast_graph = prepare_with_order(&graph, &[1, 0, 2])?;
/// let answers = calc_paths(&fast_graph, &[(0, 2), (2, 0), (1, 1), (0, 7)]);
/// let weights: Vec<_> = answers.into_iter().map(|answer| answer.map(|path| path.map(|p| p.get_weight())).map_err(|e| e.number())).collect();
/// assert_eq!(weights, [Ok(Some(5)), Ok(None), Ok(Some(0)), Err(Some(22))]);
/// # Ok(())
/// # }
/// ```
pub fn calc_paths(fast_graph: &FastGraph, pairs: &[(NodeId, NodeId)]) -> Vec<Result<Option<ShortestPath>, Error>> {
    create_calculator(fast_graph).calc_paths(fast_graph, pairs)
}

/// A calculator, which keeps its buffers from one query to the next.
///
/// ```
/// # use ratmanoep::{create_calculator, prepare_with_order, Error, InputGraph};
/// # fn main() -> Result<(), Error> {
/// # let mut graph = InputGraph::new();
/// # graph.add_edge(0, 1, 2)?;
/// # graph.add_edge(1, 2, 3)?;
/// # graph.freeze()?;
/// # let fast_graph = prepare_with_order(&graph, &[1, 0, 2])?;
/// let mut calculator = create_calculator(&fast_graph);
/// for (target, weight) in [(0, 0), (1, 2), (2, 5)] {
///     let path = calculator.calc_path(&fast_graph, 0, target)?.expect("there is a route");
///     assert_eq!(path.get_weight(), weight);
/// }
/// # Ok(())
/// # }
/// ```
pub fn create_calculator(fast_graph: &FastGraph) -> PathCalculator {
    PathCalculator::new(fast_graph.get_num_nodes())
}

/// The order in which a graph was prepared, to prepare a similar one.
pub fn get_node_ordering(fast_graph: &FastGraph) -> Vec<NodeId> {
    fast_graph.get_node_ordering()
}
