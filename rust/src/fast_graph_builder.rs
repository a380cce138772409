//! The preparation of a graph in a given order.

use crate::constants::{NodeId, MAX_LINKS, MAX_NODES};
use crate::error::{answered, narrow, Error, Refusal};
use crate::fast_graph::{FastGraph, Tables};
use crate::input_graph::InputGraph;
use crate::proved::ratmanoep_build_with_order;

/// How a graph is prepared in a given order.
#[derive(Clone, Copy, Debug, PartialEq, Eq)]
pub struct ParamsWithOrder {
    /// So many nodes each witness search may settle when a node is contracted, at most 2^32 - 1. Smaller numbers make a faster preparation,
    /// more shortcuts and slower queries; weights are the same with any.
    pub max_settled_nodes_contraction_with_order: usize,
}

impl ParamsWithOrder {
    pub fn new(max_settled_nodes_contraction_with_order: usize) -> Self {
        ParamsWithOrder {
            max_settled_nodes_contraction_with_order,
        }
    }
}

impl Default for ParamsWithOrder {
    fn default() -> Self {
        ParamsWithOrder::new(100)
    }
}

/// What a build is handed, in the library's widths.
struct Given {
    n: usize,
    links: [Vec<u32>; 3],
    order: Vec<u32>,
    limit: u32,
}

/// How many live arcs, and how many entries of each table, a build has room for.
#[derive(Clone, Copy)]
struct Room {
    pool: usize,
    entries: usize,
}

impl Room {
    /// Room that is always enough.
    fn most(n: usize) -> Room {
        let pool = n * n.saturating_sub(1);
        Room { pool, entries: pool / 2 }
    }

    /// Room to begin with: most networks have few shortcuts.
    fn first(links: usize, most: Room) -> Room {
        let likely = 4 * links + 64;
        Room {
            pool: likely.min(most.pool),
            entries: likely.min(most.entries),
        }
    }

    /// More of what was too little, unless there is no more.
    fn more(self, refusal: Refusal, most: Room) -> Option<Room> {
        match refusal {
            Refusal::PoolFull if self.pool < most.pool => Some(Room {
                pool: most.pool.min(4 * self.pool),
                ..self
            }),
            Refusal::TableFull if self.entries < most.entries => Some(Room {
                entries: most.entries.min(4 * self.entries),
                ..self
            }),
            _ => None,
        }
    }
}

pub(crate) fn build(graph: &InputGraph, order: &[NodeId], params: &ParamsWithOrder) -> Result<FastGraph, Error> {
    let given = Given {
        n: graph.get_num_nodes()?,
        links: graph.columns()?,
        order: order.iter().map(|&node| narrow("node", node)).collect::<Result<_, _>>()?,
        limit: narrow("settled limit", params.max_settled_nodes_contraction_with_order)?,
    };
    let most = Room::most(given.n.min(MAX_NODES));
    let mut room = Room::first(given.links[0].len().min(MAX_LINKS), most);
    loop {
        let answer = build_in(&given, room);
        match answer {
            Err(Error::Refused(refusal)) => match room.more(refusal, most) {
                Some(more) => room = more,
                None => return answer,
            },
            _ => return answer,
        }
    }
}

/// One build. The lent lengths are those of docs/SCRATCH.md; beyond the largest count the refusal comes before they matter.
fn build_in(given: &Given, room: Room) -> Result<FastGraph, Error> {
    let lent = given.n.min(MAX_NODES);
    let mut tables = Tables::with_room(lent, room.entries);
    let Tables { ranks, fwd, bwd } = &mut tables;
    let [tails, heads, weights] = &given.links;
    answered(ratmanoep_build_with_order(
        given.n,
        tails,
        heads,
        weights,
        &given.order,
        given.limit,
        room.pool as u64,
        ranks,
        &mut fwd.starts,
        &mut fwd.bases,
        &mut fwd.neighbours,
        &mut fwd.weights,
        &mut fwd.ins,
        &mut fwd.outs,
        &mut bwd.starts,
        &mut bwd.bases,
        &mut bwd.neighbours,
        &mut bwd.weights,
        &mut bwd.ins,
        &mut bwd.outs,
        &mut vec![0; 6 * room.pool],
        &mut vec![0; room.pool],
        &mut vec![0; 4 * lent],
        &mut vec![0; 2 * lent],
        &mut vec![0; 2 * (room.pool + 1)],
    ))?;
    Ok(FastGraph::of_passed(given.n, tables))
}
