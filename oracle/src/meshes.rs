//! The graphs for timing (request 12 of document 02), the same ones at every run. Links ascend by
//! (from, to), as document 01 wants them.

use crate::constants::NodeId;
use crate::input_graph::{Edge, InputGraph};
use std::collections::BTreeMap;

/// Meshes that a build may be handed: at most 1,024 nodes.
pub const NAMES: [&str; 5] = ["grid32", "nearest3k", "nearest5k", "uniform2k", "uniform3k"];

pub fn mesh(name: &str) -> InputGraph {
    match name {
        "grid32" => grid(32),
        "nearest3k" => nearest(1_000, 3),
        "nearest5k" => nearest(1_000, 5),
        "uniform2k" => uniform(1_000, 2_000),
        "uniform3k" => uniform(1_000, 3_000),
        _ => crate::fail(&format!("there is no graph {name}; there are {}", NAMES.join(", "))),
    }
}

/// Links by their ends, so that none stands twice and all come out in order.
type Links = BTreeMap<(NodeId, NodeId), u64>;

fn graph(nodes: usize, links: Links) -> InputGraph {
    let edge = |((from, to), weight)| Edge { from, to, weight };
    InputGraph::new(nodes, links.into_iter().map(edge).collect())
}

fn link_both_ways(links: &mut Links, a: NodeId, b: NodeId, weight: u64) {
    links.insert((a, b), weight);
    links.insert((b, a), weight);
}

/// A square of side × side nodes, neighbours linked both ways, weights 1 to 100.
fn grid(side: usize) -> InputGraph {
    let mut rng = Rng(1);
    let mut links = Links::new();
    for node in 0..side * side {
        if node % side + 1 < side {
            link_both_ways(&mut links, node, node + 1, 1 + rng.below(100));
        }
        if node / side + 1 < side {
            link_both_ways(&mut links, node, node + side, 1 + rng.below(100));
        }
    }
    graph(side * side, links)
}

/// Points in a square, each linked both ways with its nearest ones, weighing the distance.
fn nearest(nodes: usize, neighbours: usize) -> InputGraph {
    const SIDE: u64 = 100_000;
    let mut rng = Rng(2);
    let points: Vec<[u64; 2]> = (0..nodes).map(|_| [rng.below(SIDE), rng.below(SIDE)]).collect();
    let mut links = Links::new();
    for (node, here) in points.iter().enumerate() {
        let squared = |there: &[u64; 2]| {
            here[0].abs_diff(there[0]).pow(2) + here[1].abs_diff(there[1]).pow(2)
        };
        let mut others: Vec<(u64, NodeId)> =
            points.iter().enumerate().map(|(other, there)| (squared(there), other)).collect();
        others.swap_remove(node);
        others.select_nth_unstable(neighbours);
        for &(squared, other) in &others[..neighbours] {
            link_both_ways(&mut links, node, other, 1 + squared.isqrt());
        }
    }
    graph(nodes, links)
}

/// Links between any two nodes, weights 1 to 100.
pub fn uniform(nodes: usize, count: usize) -> InputGraph {
    let mut rng = Rng(3);
    let mut links = Links::new();
    while links.len() < count {
        let (from, to) = (rng.below(nodes as u64) as NodeId, rng.below(nodes as u64) as NodeId);
        if from != to {
            links.insert((from, to), 1 + rng.below(100));
        }
    }
    graph(nodes, links)
}

/// SplitMix64.
pub struct Rng(pub u64);

impl Rng {
    pub fn below(&mut self, bound: u64) -> u64 {
        self.next() % bound
    }

    pub fn next(&mut self) -> u64 {
        self.0 = self.0.wrapping_add(0x9E37_79B9_7F4A_7C15);
        let mut z = self.0;
        z = (z ^ (z >> 30)).wrapping_mul(0xBF58_476D_1CE4_E5B9);
        z = (z ^ (z >> 27)).wrapping_mul(0x94D0_49BB_1331_11EB);
        z ^ (z >> 31)
    }
}
