//! Stand-in: the numbers of document 01. Marks have the paper's values, so tables need no translation.

pub type NodeId = usize;
pub type EdgeId = usize;
pub type Weight = u64;

pub const INVALID_NODE: NodeId = 4_294_967_295;
pub const INVALID_EDGE: EdgeId = INVALID_NODE;
pub const WEIGHT_MAX: Weight = Weight::MAX;
pub const WEIGHT_ZERO: Weight = 0;

pub const MAX_NODES: usize = 1_024;
pub const MAX_LINKS: usize = 16_384;
pub const MAX_ENDS: usize = 16;
/// The largest pair sum, table weight and offset.
pub const MAX_SUM: Weight = 1 << 40;
