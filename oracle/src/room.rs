//! Added by us: refusals 10 to 12, which the crate lacks. The contraction is run with the crate's own
//! pieces in the crate's order, and only the rooms are counted here; the tables come from the crate.

use crate::constants::{NodeId, MAX_SUM};
use crate::input_graph::InputGraph;
use crate::node_contractor::handle_shortcuts;
use crate::preparation_graph::PreparationGraph;
use crate::witness_search::WitnessSearch;

/// How many live arcs, forward entries and backward entries there is room for.
pub struct Room {
    pub pool: usize,
    pub fwd: usize,
    pub bwd: usize,
}

/// The most live arcs there are at once, or the refusal that is met first.
pub fn contract_within(
    input_graph: &InputGraph,
    order: &[NodeId],
    limit: usize,
    room: &Room,
) -> Result<usize, u64> {
    let mut live = input_graph.get_edges().len();
    if live > room.pool {
        return Err(10);
    }
    let mut peak = live;
    let (mut fwd, mut bwd) = (0, 0);
    let mut graph = PreparationGraph::from_input_graph(input_graph);
    let mut witness_search = WitnessSearch::new(input_graph.get_num_nodes());
    for &node in order {
        fwd += graph.out_edges[node].len();
        bwd += graph.in_edges[node].len();
        if fwd > room.fwd || bwd > room.bwd {
            return Err(11);
        }
        let mut refusal = None;
        // Only pairs without a witness come here. The crate's loop can't be left early: after a refusal the rest of them is passed over.
        handle_shortcuts(
            &mut graph,
            &mut witness_search,
            node,
            |graph, shortcut| {
                if refusal.is_some() {
                    return;
                }
                let (from, to) = shortcut.ends();
                let arc = graph.out_edges[from].iter().find(|arc| arc.adj_node == to);
                if shortcut.weight() > MAX_SUM {
                    let kept = arc.is_some_and(|arc| arc.weight <= shortcut.weight());
                    refusal = (!kept).then_some(12);
                    return;
                }
                let adds = arc.is_none();
                if adds && live == room.pool {
                    refusal = Some(10);
                    return;
                }
                live += adds as usize;
                peak = peak.max(live);
                shortcut.add_to(graph);
            },
            limit,
        );
        if let Some(number) = refusal {
            return Err(number);
        }
        live -= graph.out_edges[node].len() + graph.in_edges[node].len();
        graph.disconnect(node);
    }
    Ok(peak)
}
