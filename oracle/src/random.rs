//! Random graphs, and faults in their columns.

use crate::constants::{MAX_LINKS, MAX_NODES};
use crate::input_graph::{Edge, InputGraph};
use crate::lent::Columns;
use crate::meshes::Rng;

pub fn below(numbers: &mut Rng, bound: usize) -> usize {
    numbers.below(bound as u64) as usize
}

/// A number that a rule may turn on, or any.
pub fn any_number(numbers: &mut Rng) -> u64 {
    match below(numbers, 9) {
        0 => numbers.next(),
        1 => numbers.next() as u32 as u64,
        2 => [u32::MAX as u64, u64::MAX, 1 << 40, (1 << 40) + 1, 1 << 63, 1024, 1025][below(numbers, 7)],
        _ => below(numbers, 6) as u64,
    }
}

/// Few such numbers, or none; now and then many.
pub fn any_column(numbers: &mut Rng) -> Vec<u64> {
    let most = if below(numbers, 100) == 0 { 3000 } else { 8 };
    (0..below(numbers, most)).map(|_| any_number(numbers)).collect()
}

/// Links sorted by tail and head, one for a pair, no loops, often of equal weights.
pub fn links(numbers: &mut Rng, nodes: usize) -> InputGraph {
    let (share, heaviest) = (1 + below(numbers, 9), [1, 3, 9, 1000, 4_294_967_295][below(numbers, 5)]);
    let mut edges = vec![];
    for from in 0..nodes {
        for to in 0..nodes {
            if from != to && below(numbers, 10) < share {
                edges.push(Edge { from, to, weight: 1 + below(numbers, heaviest) as u64 });
            }
        }
    }
    InputGraph::new(nodes, edges)
}

/// Up to 12 nodes, now and then up to 40, up to 200 or up to 1,024.
pub fn random_size(numbers: &mut Rng, round: usize) -> usize {
    match round {
        _ if round % 5000 == 4999 => 1024 - below(numbers, 200),
        _ if round % 1000 == 500 => below(numbers, 201),
        _ if round % 100 == 0 => below(numbers, 41),
        _ => below(numbers, 13),
    }
}

pub fn random_graph(numbers: &mut Rng, round: usize) -> InputGraph {
    let nodes = random_size(numbers, round);
    graph_of(numbers, nodes)
}

/// Few links where there are many nodes.
pub fn graph_of(numbers: &mut Rng, nodes: usize) -> InputGraph {
    if nodes > 12 { sparse(numbers, nodes) } else { links(numbers, nodes) }
}

fn sparse(numbers: &mut Rng, nodes: usize) -> InputGraph {
    let heaviest = [1, 9, 4_294_967_295][below(numbers, 3)];
    let mut ends = std::collections::BTreeSet::new();
    for _ in 0..2 * nodes {
        let (from, to) = (below(numbers, nodes), below(numbers, nodes));
        if from != to {
            ends.insert((from, to));
        }
    }
    let edge = |(from, to)| Edge { from, to, weight: 1 + below(numbers, heaviest) as u64 };
    InputGraph::new(nodes, ends.into_iter().map(edge).collect())
}

/// A line of links as heavy as can be, long enough for sums around 2^40, and an order that makes them: with ways back, or with a few links
/// and nodes beside it, so that some sums have a witness and others an arc of the same ends.
pub fn long_line(numbers: &mut Rng) -> (InputGraph, Vec<usize>) {
    const HEAVIEST: usize = u32::MAX as usize;
    let back = below(numbers, 4) == 0;
    let last = if back { 128 + below(numbers, 5) } else { 255 + below(numbers, 5) };
    let nodes = last + 1 + below(numbers, 4);
    let mut links = std::collections::BTreeMap::new();
    for node in 0..last {
        links.insert((node, node + 1), HEAVIEST);
        if back {
            links.insert((node + 1, node), HEAVIEST);
        }
    }
    if below(numbers, 3) > 0 {
        // the sum of 257 links is 2^40 and a little, whichever way
        links.insert((last - 1, last), 254 + below(numbers, 5));
    }
    for _ in 0..below(numbers, 6) {
        let weight = [1, 1 + below(numbers, HEAVIEST), HEAVIEST][below(numbers, 3)];
        let off = last + below(numbers, nodes - last);
        let (from, to) = [(0, last), (0, off), (off, last), (below(numbers, nodes), below(numbers, nodes)), (below(numbers, 3), last)][below(numbers, 5)];
        if from != to {
            links.insert((from, to), weight);
        }
    }
    let edges = links.into_iter().map(|((from, to), weight)| Edge { from, to, weight: weight as u64 }).collect();
    let mut order = match below(numbers, 3) {
        0 => shuffled(numbers, nodes),
        1 => (0..nodes).rev().collect(),
        _ => (0..nodes).collect(),
    };
    if below(numbers, 8) > 0 {
        // the ends of the line last
        order.retain(|&node| node != 0 && node != last);
        order.extend([0, last]);
    }
    (InputGraph::new(nodes, edges), order)
}

pub fn shuffled(numbers: &mut Rng, nodes: usize) -> Vec<usize> {
    let mut order: Vec<usize> = (0..nodes).collect();
    for k in (1..nodes).rev() {
        order.swap(k, below(numbers, k + 1));
    }
    order
}

impl Columns {
    /// Puts a fault into them: a number changed, two links swapped, columns cut or grown, another count of nodes.
    pub fn damage(&mut self, numbers: &mut Rng) {
        let Columns { n, tails, heads, weights } = self;
        let links = tails.len().min(heads.len()).min(weights.len());
        if links == 0 {
            return tails.push(0);
        }
        let (i, j, node) = (below(numbers, links), below(numbers, links), below(numbers, n.saturating_add(2)) as u32);
        match below(numbers, 9) {
            0 => tails[i] = node,
            1 => heads[i] = node,
            2 => heads[i] = tails[i],
            3 => weights[i] = 0,
            4 => {
                tails.swap(i, j);
                heads.swap(i, j)
            }
            5 => heads.truncate(i),
            6 => weights.push(1),
            7 if node == 0 => {
                for column in [tails, heads, weights] {
                    column.resize(MAX_LINKS + i % 2, 1);
                }
            }
            _ => *n = [*n - 1, MAX_NODES, MAX_NODES + 1, usize::MAX][below(numbers, 4)],
        }
    }
}
