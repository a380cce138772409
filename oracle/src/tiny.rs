//! Every graph of up to three nodes with weights 1 and 2, every order, limits 0 to 3.

use crate::constants::NodeId;
use crate::input_graph::{Edge, InputGraph};

pub fn each(mut visit: impl FnMut(&InputGraph, &[NodeId], usize)) {
    for nodes in 0..=3usize {
        let pairs: Vec<(usize, usize)> =
            (0..nodes).flat_map(|a| (0..nodes).filter(move |&b| a != b).map(move |b| (a, b))).collect();
        for code in 0..3usize.pow(pairs.len() as u32) {
            let weight = |k: usize| code / 3usize.pow(k as u32) % 3;
            let edge = |(k, &(from, to)): (usize, &(usize, usize))| Edge { from, to, weight: weight(k) as u64 };
            let graph = InputGraph::new(nodes, pairs.iter().enumerate().map(edge).filter(|e| e.weight > 0).collect());
            for order in orders(nodes) {
                for limit in 0..=3 {
                    visit(&graph, &order, limit);
                }
            }
        }
    }
}

fn orders(nodes: usize) -> Vec<Vec<NodeId>> {
    if nodes == 0 {
        return vec![vec![]];
    }
    let shorter = orders(nodes - 1);
    (0..nodes).flat_map(|at| shorter.iter().map(move |order| [&order[..at], &[nodes - 1], &order[at..]].concat())).collect()
}
