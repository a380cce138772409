//! Added by us: the table check of document 01 and of request 7 (refusal 20), which the crate lacks.

use crate::constants::{EdgeId, NodeId, INVALID_EDGE, MAX_NODES, MAX_SUM};
use crate::fast_graph::{FastGraph, FastGraphEdge};
use crate::json::Json;

/// Tables as they are handed in: columns of any lengths, and any numbers in them. A table's columns are base, neighbour, weight and the
/// two numbers.
#[derive(Clone, Debug)]
pub struct Tables {
    pub nodes: usize,
    pub ranks: Vec<usize>,
    pub fwd_starts: Vec<usize>,
    pub fwd: [Vec<u64>; 5],
    pub bwd_starts: Vec<usize>,
    pub bwd: [Vec<u64>; 5],
}

impl Tables {
    pub fn of(case: &Json) -> Tables {
        let five = |name: &str| {
            let columns: Vec<Vec<u64>> = case.get(name).list().iter().map(Json::numbers).collect();
            columns.try_into().unwrap_or_else(|_| crate::fail("a table has five columns"))
        };
        Tables {
            nodes: case.get("nodes").id(),
            ranks: case.get("ranks").ids(),
            fwd_starts: case.get("fwd_starts").ids(),
            fwd: five("fwd"),
            bwd_starts: case.get("bwd_starts").ids(),
            bwd: five("bwd"),
        }
    }

    /// The hierarchy in them, without the places beyond those used; or none, if it breaks a table rule.
    pub fn read(&self) -> Option<Checked> {
        let graph = self.by_the_paper()?;
        let apart = neighbours_differ(&graph.first_edge_ids_fwd, &graph.edges_fwd)
            && neighbours_differ(&graph.first_edge_ids_bwd, &graph.edges_bwd);
        apart.then(|| Checked::new(graph))
    }

    /// The same by document 01's own rules, which let two entries of one node to one neighbour through.
    pub fn by_the_paper(&self) -> Option<FastGraph> {
        let nodes = self.nodes;
        if nodes > MAX_NODES || self.ranks.len() < nodes || !is_permutation(&self.ranks[..nodes]) {
            return None;
        }
        let (first_edge_ids_fwd, edges_fwd) = table(&self.fwd_starts, &self.fwd, nodes)?;
        let (first_edge_ids_bwd, edges_bwd) = table(&self.bwd_starts, &self.bwd, nodes)?;
        let graph = FastGraph {
            ranks: self.ranks[..nodes].to_vec(),
            edges_fwd,
            first_edge_ids_fwd,
            edges_bwd,
            first_edge_ids_bwd,
        };
        let fits = entries_fit(&graph, &graph.first_edge_ids_fwd, &graph.edges_fwd, |e| {
            (e.base_node, e.adj_node)
        }) && entries_fit(&graph, &graph.first_edge_ids_bwd, &graph.edges_bwd, |e| {
            (e.adj_node, e.base_node)
        });
        fits.then_some(graph)
    }
}

/// A hierarchy that keeps the rules, and the most links that any of its entries opens into.
pub struct Checked {
    pub graph: FastGraph,
    pub longest_opening: u64,
}

impl Checked {
    pub fn new(graph: FastGraph) -> Checked {
        Checked { longest_opening: longest_opening(&graph), graph }
    }
}

/// Whether the numbers below their count stand there, each once.
pub fn is_permutation(ids: &[usize]) -> bool {
    let mut seen = vec![false; ids.len()];
    ids.iter().all(|&id| id < seen.len() && !std::mem::replace(&mut seen[id], true))
}

pub fn equally_long(columns: &[usize]) -> bool {
    columns.iter().all(|&length| length == columns[0])
}

/// The starts and the used entries of one table, if its columns and starts keep the rules.
fn table(starts: &[usize], columns: &[Vec<u64>; 5], nodes: usize) -> Option<(Vec<EdgeId>, Vec<FastGraphEdge>)> {
    let lengths = columns.each_ref().map(Vec::len);
    if !equally_long(&lengths) || starts.len() < nodes + 1 {
        return None;
    }
    let starts = starts[..nodes + 1].to_vec();
    if starts[0] != 0 || !starts.is_sorted() || starts[nodes] > lengths[0] {
        return None;
    }
    let id = |column: usize, i: usize| columns[column][i] as usize;
    let edge = |i| FastGraphEdge::new(id(0, i), id(1, i), columns[2][i], id(3, i), id(4, i));
    let edges = (0..starts[nodes]).map(edge).collect();
    Some((starts, edges))
}

/// Whether every entry of one table keeps the rules. `ends` gives the tail and head of an entry's arc:
/// that is all the two tables differ in.
fn entries_fit(
    graph: &FastGraph,
    starts: &[EdgeId],
    edges: &[FastGraphEdge],
    ends: fn(&FastGraphEdge) -> (NodeId, NodeId),
) -> bool {
    let rank = |node: NodeId| graph.ranks.get(node);
    let replaces = |e: &FastGraphEdge| {
        let in_edge = graph.edges_bwd.get(e.replaced_in_edge)?;
        let out_edge = graph.edges_fwd.get(e.replaced_out_edge)?;
        let fits = in_edge.base_node == out_edge.base_node
            && rank(in_edge.base_node)? < rank(e.base_node)?
            && (in_edge.adj_node, out_edge.adj_node) == ends(e)
            && in_edge.weight.checked_add(out_edge.weight)? == e.weight;
        Some(fits)
    };
    let fits = |e: &FastGraphEdge, range: usize| {
        rank(e.base_node) == Some(&range)
            && rank(e.adj_node) > Some(&range)
            && (1..=MAX_SUM).contains(&e.weight)
            && ((e.replaced_in_edge, e.replaced_out_edge) == (INVALID_EDGE, INVALID_EDGE)
                || replaces(e) == Some(true))
    };
    starts.windows(2).enumerate().all(|(range, stretch)| {
        edges[stretch[0]..stretch[1]].iter().all(|e| fits(e, range))
    })
}

/// Whether no two entries of one node lead to one neighbour. By sorting: the proved code does it otherwise.
fn neighbours_differ(starts: &[EdgeId], edges: &[FastGraphEdge]) -> bool {
    starts.windows(2).all(|stretch| {
        let mut neighbours: Vec<NodeId> = edges[stretch[0]..stretch[1]].iter().map(|e| e.adj_node).collect();
        neighbours.sort_unstable();
        neighbours.windows(2).all(|two| two[0] != two[1])
    })
}

/// The most links that any entry opens into. Replaced entries are of lower rank, so going up the
/// ranks their numbers are known.
fn longest_opening(graph: &FastGraph) -> u64 {
    let mut fwd: Vec<u64> = Vec::new();
    let mut bwd: Vec<u64> = Vec::new();
    for rank in 0..graph.ranks.len() {
        let opening = |e: &FastGraphEdge| match e.is_shortcut() {
            true => bwd[e.replaced_in_edge] + fwd[e.replaced_out_edge],
            false => 1,
        };
        let of_rank = |starts: &[EdgeId], edges: &[FastGraphEdge]| -> Vec<u64> {
            edges[starts[rank]..starts[rank + 1]].iter().map(opening).collect()
        };
        let more_fwd = of_rank(&graph.first_edge_ids_fwd, &graph.edges_fwd);
        let more_bwd = of_rank(&graph.first_edge_ids_bwd, &graph.edges_bwd);
        fwd.extend(more_fwd);
        bwd.extend(more_bwd);
    }
    fwd.into_iter().chain(bwd).max().unwrap_or(0)
}
