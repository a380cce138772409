//! Tables for the proved code: as the crate builds them, damaged, made up by the rules, and with one neighbour twice.

use crate::answer::{crates_build, entry};
use crate::constants::{NodeId, INVALID_EDGE, MAX_SUM};
use crate::fail;
use crate::fast_graph::{FastGraph, FastGraphEdge};
use crate::input_graph::InputGraph;
use crate::meshes::Rng;
use crate::random::{any_column, any_number, below, random_graph, random_size, shuffled};
use crate::tables::Tables;
use std::cmp::Reverse;
use std::collections::HashSet;

pub const KINDS: [&str; 7] = [
    "built tables",
    "damaged built tables",
    "made-up tables",
    "damaged made-up tables",
    "tables of any numbers",
    "built tables, a neighbour twice",
    "made-up tables, a neighbour twice",
];

/// Some tables, of one of the kinds; with them the graph, where they are what the crate built of it.
pub fn drawn(numbers: &mut Rng, round: usize) -> (&'static str, Tables, Option<InputGraph>) {
    let kind = [0, 0, 0, 0, 0, 1, 1, 2, 2, 2, 2, 2, 3, 3, 4, 5, 6][below(numbers, 17)];
    let graph = [0, 1, 5].contains(&kind).then(|| random_graph(numbers, round));
    let mut tables = match &graph {
        Some(graph) => built(numbers, graph),
        None if kind == 4 => any_tables(numbers),
        None => {
            let nodes = random_size(numbers, round);
            made_up(numbers, nodes)
        }
    };
    if kind < 5 && kind % 2 == 1 {
        for _ in 0..[1, 1, 1, 2, 3][below(numbers, 5)] {
            damage(numbers, &mut tables);
        }
    }
    let kind = if kind < 5 || twin(numbers, &mut tables) { kind } else { 2 * (kind - 5) };
    (KINDS[kind], tables, graph.filter(|_| kind == 0))
}

/// Any numbers in columns of any lengths.
fn any_tables(numbers: &mut Rng) -> Tables {
    fn ids(numbers: &mut Rng) -> Vec<usize> {
        any_column(numbers).into_iter().map(|id| id as u32 as usize).collect()
    }
    fn table(numbers: &mut Rng) -> [Vec<u64>; 5] {
        let entries = (below(numbers, 2) == 0).then(|| below(numbers, 8));
        [0, 1, 2, 3, 4].map(|k| {
            let mut column = any_column(numbers);
            column.resize(entries.unwrap_or(column.len()), 1);
            column.into_iter().map(|number| if k == 2 { number } else { number as u32 as u64 }).collect()
        })
    }
    Tables {
        nodes: any_number(numbers) as usize,
        ranks: ids(numbers),
        fwd_starts: ids(numbers),
        fwd: table(numbers),
        bwd_starts: ids(numbers),
        bwd: table(numbers),
    }
}

/// The tables of a hierarchy, in columns that are longer than what is used by so much rubbish.
pub fn tables_of(graph: &FastGraph, more: usize) -> Tables {
    let columns = |edges: &[FastGraphEdge]| {
        let mut columns: [Vec<u64>; 5] = Default::default();
        for edge in edges {
            for (column, number) in columns.iter_mut().zip(entry(edge)) {
                column.push(number);
            }
        }
        columns.iter_mut().for_each(|column| column.extend(std::iter::repeat(3).take(more)));
        columns
    };
    let longer = |ids: &[usize]| ids.iter().copied().chain(std::iter::repeat(3).take(more)).collect();
    Tables {
        nodes: graph.ranks.len(),
        ranks: longer(&graph.ranks),
        fwd_starts: longer(&graph.first_edge_ids_fwd),
        fwd: columns(&graph.edges_fwd),
        bwd_starts: longer(&graph.first_edge_ids_bwd),
        bwd: columns(&graph.edges_bwd),
    }
}

/// The crate's tables of a graph, with some order and limit.
fn built(numbers: &mut Rng, graph: &InputGraph) -> Tables {
    let nodes = graph.get_num_nodes();
    let order = shuffled(numbers, nodes);
    let limit = [0, 1, 2, nodes, 100][below(numbers, 5)];
    tables_of(&crates_build(graph, &order, limit), below(numbers, 3))
}

/// Tables that keep the rules though no build made them.
fn made_up(numbers: &mut Rng, nodes: usize) -> Tables {
    let order = shuffled(numbers, nodes);
    let graph = if nodes <= 24 && below(numbers, 2) == 0 { tower(&order) } else { jumble(numbers, &order) };
    let tables = tables_of(&graph, below(numbers, 3));
    if tables.read().is_none() {
        fail("made-up tables break a rule");
    }
    tables
}

/// Every two nodes have an entry, above the lowest rank the heaviest shortcut that fits: it opens into 2^rank links.
pub fn tower(order: &[NodeId]) -> FastGraph {
    laid_out(order, |graph, rank, forward| {
        let (base, above) = (order[rank], &order[rank + 1..]);
        if rank == 0 {
            return above.iter().map(|&adj| plain(base, adj, 1)).collect();
        }
        let mut fitting = shortcuts(graph, base, forward);
        fitting.sort_by_key(|e| (e.adj_node, Reverse(e.weight)));
        fitting.dedup_by_key(|e| e.adj_node);
        fitting
    })
}

/// Every two nodes have an entry, above the lowest rank a shortcut over any lower node.
pub fn complete(numbers: &mut Rng, order: &[NodeId]) -> FastGraph {
    laid_out(order, |graph, rank, forward| {
        let entry = |adj_rank: usize| {
            let (base, adj) = (order[rank], order[adj_rank]);
            if rank == 0 {
                return plain(base, adj, 1);
            }
            let centre = below(numbers, rank);
            // The entries of a rank are in the order of their neighbours' ranks.
            let [near, far] = [rank, adj_rank].map(|neighbour| neighbour - centre - 1);
            let (tail, head) = if forward { (near, far) } else { (far, near) };
            let (i, o) = (graph.first_edge_ids_bwd[centre] + tail, graph.first_edge_ids_fwd[centre] + head);
            FastGraphEdge::new(base, adj, graph.edges_bwd[i].weight + graph.edges_fwd[o].weight, i, o)
        };
        (rank + 1..order.len()).map(entry).collect()
    })
}

/// Weights of no shortest way, shortcuts over any entries that fit.
fn jumble(numbers: &mut Rng, order: &[NodeId]) -> FastGraph {
    let heaviest = [1, 3, 9, MAX_SUM as usize][below(numbers, 4)];
    laid_out(order, |graph, rank, forward| {
        let (base, above) = (order[rank], &order[rank + 1..]);
        let fitting = shortcuts(graph, base, forward);
        let mut entries = vec![];
        if !above.is_empty() {
            for _ in 0..below(numbers, 3) {
                entries.push(plain(base, above[below(numbers, above.len())], 1 + below(numbers, heaviest) as u64));
            }
            for _ in 0..below(numbers, 4).min(fitting.len()) {
                entries.push(fitting[below(numbers, fitting.len())]);
            }
        }
        let mut seen = HashSet::new();
        entries.retain(|e| seen.insert(e.adj_node));
        entries
    })
}

fn plain(base: NodeId, adj: NodeId, weight: u64) -> FastGraphEdge {
    FastGraphEdge::new(base, adj, weight, INVALID_EDGE, INVALID_EDGE)
}

/// A hierarchy of the entries that are given for each rank, forward and then backward.
fn laid_out(order: &[NodeId], mut entries: impl FnMut(&FastGraph, usize, bool) -> Vec<FastGraphEdge>) -> FastGraph {
    let mut graph = FastGraph::new(order.len());
    for (rank, &node) in order.iter().enumerate() {
        graph.ranks[node] = rank;
    }
    for rank in 0..order.len() {
        let fwd = entries(&graph, rank, true);
        graph.edges_fwd.extend(fwd);
        graph.first_edge_ids_fwd[rank + 1] = graph.edges_fwd.len();
        let bwd = entries(&graph, rank, false);
        graph.edges_bwd.extend(bwd);
        graph.first_edge_ids_bwd[rank + 1] = graph.edges_bwd.len();
    }
    graph
}

/// All entries of a node that may stand for two of a lower one; those of lower ranks are all there.
fn shortcuts(graph: &FastGraph, base: NodeId, forward: bool) -> Vec<FastGraphEdge> {
    let mut found = vec![];
    for (i, in_edge) in graph.edges_bwd.iter().enumerate() {
        for o in graph.begin_out_edges(in_edge.base_node)..graph.end_out_edges(in_edge.base_node) {
            let out_edge = &graph.edges_fwd[o];
            let (tail, head) = (in_edge.adj_node, out_edge.adj_node);
            let (near, adj) = if forward { (tail, head) } else { (head, tail) };
            let weight = in_edge.weight + out_edge.weight;
            if near == base && graph.ranks[adj] > graph.ranks[base] && weight <= MAX_SUM {
                found.push(FastGraphEdge::new(base, adj, weight, i, o));
            }
        }
    }
    found
}

/// An entry more, to a neighbour that its node has an entry to already, in the same table: of another weight, or as heavy, plain or opened. Starts
/// and numbers are moved along, so that document 01's own rules still hold. Whether there was an entry to do this with.
fn twin(numbers: &mut Rng, tables: &mut Tables) -> bool {
    let mut forward = below(numbers, 2) == 0;
    if (if forward { &tables.fwd_starts } else { &tables.bwd_starts })[tables.nodes] == 0 {
        forward = !forward;
    }
    let (starts, columns) = if forward { (&mut tables.fwd_starts, &mut tables.fwd) } else { (&mut tables.bwd_starts, &mut tables.bwd) };
    let used = starts[tables.nodes];
    if used == 0 {
        return false;
    }
    let of = below(numbers, used);
    let rank = (0..tables.nodes).rfind(|&rank| starts[rank] <= of).unwrap_or(0);
    let at = starts[rank] + below(numbers, starts[rank + 1] - starts[rank] + 1);
    let mut more = [0, 1, 2, 3, 4].map(|k| columns[k][of]);
    if below(numbers, 2) == 0 {
        // plain, and so of any weight
        let weight = [more[2], more[2] + 1, 1, 1 + below(numbers, 9) as u64][below(numbers, 4)].min(MAX_SUM);
        more = [more[0], more[1], weight, INVALID_EDGE as u64, INVALID_EDGE as u64];
    }
    columns.iter_mut().zip(more).for_each(|(column, number)| column.insert(at, number));
    starts[rank + 1..=tables.nodes].iter_mut().for_each(|start| *start += 1);
    // the numbers that name places of this table, in both
    let column = if forward { 4 } else { 3 };
    for number in tables.fwd[column].iter_mut().chain(&mut tables.bwd[column]) {
        if *number >= at as u64 && *number != INVALID_EDGE as u64 {
            *number += 1;
        }
    }
    if tables.by_the_paper().is_none() || tables.read().is_some() {
        fail("a neighbour twice is not the only fault");
    }
    true
}

/// A number that a rule may turn on.
fn odd_number(numbers: &mut Rng, old: u64, nodes: usize) -> u64 {
    match below(numbers, 9) {
        0 => old.wrapping_add(1),
        1 => old.wrapping_sub(1),
        2 => 0,
        3 => INVALID_EDGE as u64,
        4 => 1 << 40,
        5 => (1 << 40) + 1,
        6 => u64::MAX,
        _ => below(numbers, 2 * nodes + 3) as u64,
    }
}

fn resize<T: Default>(numbers: &mut Rng, column: &mut Vec<T>) {
    match below(numbers, 2) {
        0 => column.push(T::default()),
        _ => column.truncate(column.len().saturating_sub(1)),
    }
}

/// One number changed, or a column cut or grown, or another count of nodes.
fn damage(numbers: &mut Rng, tables: &mut Tables) {
    let nodes = tables.nodes.min(2000);
    if below(numbers, 12) == 0 {
        tables.nodes = [nodes + 1, nodes.saturating_sub(1), 1024, 1025, usize::MAX][below(numbers, 5)];
        return;
    }
    let which = below(numbers, 13);
    let narrow = |number: u64| number.min(u32::MAX as u64);
    let resized = below(numbers, 12) == 0;
    match which {
        0 | 1 | 7 => {
            let column = if which == 0 { &mut tables.ranks } else if which == 1 { &mut tables.fwd_starts } else { &mut tables.bwd_starts };
            if column.is_empty() || resized {
                return resize(numbers, column);
            }
            let k = below(numbers, column.len());
            column[k] = narrow(odd_number(numbers, column[k] as u64, nodes)) as usize
        }
        _ => {
            let k = which - if which < 7 { 2 } else { 8 };
            let column = if which < 7 { &mut tables.fwd[k] } else { &mut tables.bwd[k] };
            if column.is_empty() || resized {
                return resize(numbers, column);
            }
            let at = below(numbers, column.len());
            let number = odd_number(numbers, column[at], nodes);
            column[at] = if k == 2 { number } else { narrow(number) }
        }
    }
}
