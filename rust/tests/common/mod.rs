//! What several tests use.
#![allow(dead_code)]

use ratmanoep::{Error, FastGraph, InputGraph, NodeId, ParamsWithOrder, ShortestPath, Table, Tables, Weight};

pub type Link = (NodeId, NodeId, Weight);

/// A frozen graph of these links.
pub fn graph(links: &[Link]) -> InputGraph {
    let mut graph = InputGraph::new();
    for &(from, to, weight) in links {
        graph.add_edge(from, to, weight).unwrap();
    }
    graph.freeze().unwrap();
    graph
}

pub fn prepare(links: &[Link], order: &[NodeId]) -> Result<FastGraph, Error> {
    ratmanoep::prepare_with_order(&graph(links), order)
}

pub fn prepare_at(links: &[Link], order: &[NodeId], limit: usize) -> Result<FastGraph, Error> {
    ratmanoep::prepare_with_order_with_params(&graph(links), order, &ParamsWithOrder::new(limit))
}

/// Case L of document 01.
pub const L: [Link; 2] = [(0, 1, 2), (1, 2, 3)];

pub fn case_l() -> FastGraph {
    prepare(&L, &[1, 0, 2]).unwrap()
}

/// Tables that pass the check and that no build made: their walk from 2 to 3 is 2, 0, 1, 0, 3.
pub fn round_trip() -> FastGraph {
    let none = u32::MAX;
    let fwd = Table {
        starts: vec![0, 3, 4, 5, 5],
        bases: vec![0, 0, 0, 1, 2],
        neighbours: vec![1, 2, 3, 3, 3],
        weights: vec![1, 9, 1, 2, 4],
        ins: vec![none, none, none, 0, 2],
        outs: vec![none, none, none, 2, 3],
    };
    let bwd = Table {
        starts: vec![0, 2, 3, 3, 3],
        bases: vec![0, 0, 1],
        neighbours: vec![1, 2, 2],
        weights: vec![1, 1, 2],
        ins: vec![none, none, 1],
        outs: vec![none, none, 0],
    };
    FastGraph::from_tables(
        4,
        Tables {
            ranks: vec![0, 1, 2, 3],
            fwd,
            bwd,
        },
    )
    .unwrap()
}

/// Weight and nodes.
pub fn told(path: Option<ShortestPath>) -> Option<(Weight, Vec<NodeId>)> {
    path.map(|path| (path.get_weight(), path.get_nodes().clone()))
}

pub fn number<T: std::fmt::Debug>(answer: Result<T, Error>) -> Option<u32> {
    answer.expect_err("an error").number()
}

/// Numbers that look random, the same at each run: xorshift.
pub struct Random(pub u64);

impl Random {
    pub fn below(&mut self, bound: usize) -> usize {
        self.0 ^= self.0 << 13;
        self.0 ^= self.0 >> 7;
        self.0 ^= self.0 << 17;
        (self.0 % bound as u64) as usize
    }

    pub fn order(&mut self, n: usize) -> Vec<NodeId> {
        let mut order: Vec<NodeId> = (0..n).collect();
        for k in (1..n).rev() {
            order.swap(k, self.below(k + 1));
        }
        order
    }

    /// Links of n nodes, some twice. The last node is named, so that there are n.
    pub fn links(&mut self, n: usize, count: usize, weights: usize) -> Vec<Link> {
        let mut links = vec![(n - 1, 0, 1 + self.below(weights))];
        while links.len() < count {
            let (from, to) = (self.below(n), self.below(n));
            if from != to {
                links.push((from, to, 1 + self.below(weights)));
            }
        }
        links
    }
}

/// The least weight from a node to each, by Dijkstra's rule: of the nodes that are not done, the lightest is next.
pub fn least(n: usize, links: &[Link], source: NodeId) -> Vec<Option<Weight>> {
    let mut least = vec![None; n];
    let mut done = vec![false; n];
    least[source] = Some(0);
    while let Some((weight, node)) = (0..n).filter(|&v| !done[v]).filter_map(|v| Some((least[v]?, v))).min() {
        done[node] = true;
        for &(_, to, more) in links.iter().filter(|link| link.0 == node) {
            let sum: Weight = weight + more;
            least[to] = least[to].into_iter().chain([sum]).min();
        }
    }
    least
}

/// Whether the nodes are a walk over the links of this weight, none of them twice.
pub fn is_walk(links: &[Link], nodes: &[NodeId], weight: Weight) -> bool {
    let step = |from, to| links.iter().filter(|l| (l.0, l.1) == (from, to)).map(|l| l.2).min();
    let sum: Option<Weight> = nodes.windows(2).map(|w| step(w[0], w[1])).sum();
    let mut once = nodes.to_vec();
    once.sort_unstable();
    once.dedup();
    sum == Some(weight) && once.len() == nodes.len()
}
