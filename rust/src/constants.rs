//! Numbers and marks.

pub type NodeId = usize;
pub type EdgeId = usize;
pub type Weight = usize;

/// No node.
pub const INVALID_NODE: NodeId = usize::MAX;
/// No edge.
pub const INVALID_EDGE: EdgeId = usize::MAX;
/// No weight: there is no route, or a source or target that does not count.
pub const WEIGHT_MAX: Weight = usize::MAX;
pub const WEIGHT_ZERO: Weight = 0;

/// Nodes of a graph.
pub const MAX_NODES: usize = 1_024;
/// Links of a graph, once those with the same ends are one.
pub const MAX_LINKS: usize = 16_384;
/// Sources of a query, and targets.
pub const MAX_ENDS: usize = 16;
/// The weight of a link.
pub const MAX_LINK_WEIGHT: Weight = 4_294_967_295;
/// An offset of a source or target; the weight of an entry of a [`FastGraph`](crate::FastGraph).
pub const MAX_OFFSET: Weight = 1 << 40;
/// Bytes that [`answer_records`](crate::answer_records) reads; one more is `too long`.
pub const MAX_INPUT: usize = 16_384;
/// Bytes that [`answer_records`](crate::answer_records) writes at most.
pub const MAX_OUTPUT: usize = 278_545;
