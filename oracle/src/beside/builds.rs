//! Builds: the number and every lent place.

use super::{agree, refused, Part, Tally};
use crate::answer::{build_within, places, Lent};
use crate::constants::NodeId;
use crate::fail;
use crate::input_graph::{Edge, InputGraph};
use crate::lent::{below_formula, build_scratch, build_with_order, ids, wide, BuildScratch, Columns, Table, FILLED};
use crate::meshes::Rng;
use crate::random::{any_column, any_number, below, long_line, random_graph, shuffled};
use crate::room::{contract_within, Room};
use crate::tiny;

/// A build: what is handed in, and how many places of everything are lent.
#[derive(Clone, Debug)]
pub struct Call {
    pub links: Columns,
    pub order: Vec<u32>,
    pub limit: u32,
    pub lent: Lent,
    pub scratch: [usize; 5],
}

/// What a build borrows.
pub struct Ours {
    ranks: Vec<u32>,
    fwd: Table,
    bwd: Table,
    scratch: BuildScratch,
}

impl Ours {
    pub fn lent(call: &Call) -> Ours {
        Ours::filled(call, FILLED)
    }

    /// With every lent place holding this before.
    pub fn filled(call: &Call, filled: u32) -> Ours {
        let Lent { ranks, fwd_starts, bwd_starts, fwd, bwd, .. } = &call.lent;
        Ours {
            ranks: vec![filled; *ranks],
            fwd: Table::filled(*fwd_starts, fwd, filled),
            bwd: Table::filled(*bwd_starts, bwd, filled),
            scratch: BuildScratch::new(call.scratch),
        }
    }

    #[rustfmt::skip]
    pub fn build(&mut self, call: &Call) -> u32 {
        let Ours { ranks, fwd, bwd, scratch } = self;
        let Columns { n, tails, heads, weights } = &call.links;
        build_with_order(
            *n, tails, heads, weights, &call.order,
            call.limit, call.lent.pool as u64,
            ranks,
            &mut fwd.starts, &mut fwd.bases, &mut fwd.neighbours, &mut fwd.weights, &mut fwd.ins, &mut fwd.outs,
            &mut bwd.starts, &mut bwd.bases, &mut bwd.neighbours, &mut bwd.weights, &mut bwd.ins, &mut bwd.outs,
            &mut scratch.arcs, &mut scratch.weights, &mut scratch.nodes, &mut scratch.labels, &mut scratch.heap,
        )
    }

    /// Forward and backward, after a build.
    pub fn entries(&self, nodes: usize) -> [usize; 2] {
        [&self.fwd, &self.bwd].map(|table| table.starts[nodes] as usize)
    }

    pub fn places(&self) -> Vec<Vec<u64>> {
        [wide(&self.ranks)].into_iter().chain(self.fwd.places()).chain(self.bwd.places()).collect()
    }
}

impl Call {
    /// A build of a graph with as much room as any graph of its size may need, and one place more of every column.
    pub fn new(graph: &InputGraph, order: &[NodeId], limit: u32) -> Call {
        let nodes = graph.get_num_nodes();
        let pool = nodes * nodes.saturating_sub(1);
        let table = [pool / 2 + 1; 5];
        let lent = Lent { ranks: nodes + 1, fwd_starts: nodes + 2, bwd_starts: nodes + 2, fwd: table, bwd: table, pool, scratch_short: false };
        Call { links: Columns::of(graph), order: order.iter().map(|&node| node as u32).collect(), limit, lent, scratch: build_scratch(nodes, pool) }
    }

    /// With tables and a pool of just so much room, and scratch for it.
    pub fn within(&self, room: &Room) -> Call {
        let lent = Lent { pool: room.pool, fwd: [room.fwd; 5], bwd: [room.bwd; 5], ..self.lent };
        Call { lent, scratch: build_scratch(self.links.n, room.pool), ..self.clone() }
    }

    /// How long each column and slice of scratch is.
    fn lengths(&mut self) -> [&mut usize; 18] {
        let Lent { ranks, fwd_starts, bwd_starts, fwd, bwd, .. } = &mut self.lent;
        let mut all = [ranks, fwd_starts, bwd_starts].into_iter().chain(fwd).chain(bwd).chain(&mut self.scratch);
        std::array::from_fn(|_| all.next().unwrap())
    }

    /// Any numbers in columns of any lengths.
    fn any(numbers: &mut Rng) -> Call {
        let column = |numbers: &mut Rng| any_column(numbers).into_iter().map(|number| number as u32).collect();
        let links = Columns { n: any_number(numbers) as usize, tails: column(numbers), heads: column(numbers), weights: column(numbers) };
        let lent = Lent { ranks: 0, fwd_starts: 0, bwd_starts: 0, fwd: [0; 5], bwd: [0; 5], pool: any_number(numbers) as usize, scratch_short: false };
        let mut call = Call { links, order: column(numbers), limit: any_number(numbers) as u32, lent, scratch: [0; 5] };
        let alike = below(numbers, 2) == 0;
        let length = below(numbers, 40);
        if alike {
            call.links.heads.resize(call.links.tails.len(), 1);
            call.links.weights.resize(call.links.tails.len(), 1);
        }
        call.lengths().into_iter().for_each(|place| *place = if alike { length } else { below(numbers, 40) });
        call
    }

    /// Number and every lent place, with the crate's tables.
    fn theirs(&self) -> (u32, Vec<Vec<u64>>) {
        let scratch_short = below_formula(&self.scratch, &build_scratch(self.links.n, self.lent.pool));
        let lent = Lent { scratch_short, ..self.lent };
        let built = self.links.checked().and_then(|graph| build_within(&graph, &ids(&self.order), self.limit as usize, &lent));
        let number = *built.as_ref().err().unwrap_or(&0) as u32;
        (number, places(&lent, &built, FILLED as u64).into())
    }

    fn compare(&self) -> u32 {
        let mut lent = Ours::lent(self);
        let number = lent.build(self);
        agree(self, (number, lent.places()), self.theirs()).0
    }
}

#[derive(Default)]
pub struct Builds(Tally);

impl Builds {
    fn add(&mut self, over: &'static str, call: &Call) {
        self.0.add(over, refused(call.compare() as u64));
    }

    /// A graph that can be built, with every room just enough, and one place less of each.
    fn edges(&mut self, over: &'static str, call: &Call) {
        let mut lent = Ours::lent(call);
        if lent.build(call) != 0 {
            return;
        }
        let n = call.links.n;
        let [fwd, bwd] = lent.entries(n);
        let graph = InputGraph::new(n, call.links.edges());
        let enough = Room { pool: usize::MAX, fwd, bwd };
        let Ok(pool) = contract_within(&graph, &ids(&call.order), call.limit as usize, &enough) else { fail("a build that passes has a peak") };
        let room = Room { pool, fwd, bwd };
        let mut exact = call.within(&room);
        exact.lent = Lent { ranks: n, fwd_starts: n + 1, bwd_starts: n + 1, ..exact.lent };
        self.add(over, &exact);
        if pool > 0 {
            self.add(over, &exact.within(&Room { pool: pool - 1, ..room }));
        }
        if fwd > 0 {
            self.add(over, &exact.within(&Room { fwd: fwd - 1, ..room }));
        }
        if bwd > 0 {
            self.add(over, &exact.within(&Room { bwd: bwd - 1, ..room }));
        }
        for k in 0..18 {
            let mut less = exact.clone();
            let length = &mut less.lengths()[k];
            if **length > 0 {
                **length -= 1;
                self.add(over, &less);
            }
        }
    }

    /// The lines of document 01: 256 links of the largest weight, one more, and pair sums of 2^40 and one more; each also with a link of 1 from
    /// end to end.
    fn lines(&mut self) {
        for (links, last) in [(256, u32::MAX), (257, u32::MAX), (257, 256), (257, 257)] {
            let edge = |i| Edge { from: i, to: i + 1, weight: if i + 1 == links { last as u64 } else { u32::MAX as u64 } };
            let order: Vec<NodeId> = (1..links).chain([0, links]).collect();
            let mut edges: Vec<Edge> = (0..links).map(edge).collect();
            self.add("the long line", &Call::new(&InputGraph::new(links + 1, edges.clone()), &order, 100));
            edges.insert(1, Edge { from: 0, to: links, weight: 1 });
            let graph = InputGraph::new(links + 1, edges);
            for limit in [0, 1, 2, 100] {
                self.add("it with a link from end to end", &Call::new(&graph, &order, limit));
            }
        }
    }

    /// Sums around 2^40, with room for them, about as much, or too little.
    fn long_lines(&mut self, numbers: &mut Rng) {
        let (graph, order) = long_line(numbers);
        let arcs = graph.get_edges().len();
        let limit = [0, 1, 2, 3, graph.get_num_nodes() as u32, 100][below(numbers, 6)];
        let mut some = |whole: usize| if below(numbers, 3) == 0 { arcs + below(numbers, 9) } else { whole };
        let room = Room { pool: some(4 * arcs), fwd: some(4 * arcs), bwd: some(4 * arcs) };
        let call = Call::new(&graph, &order, limit).within(&room);
        self.add("long lines", &call);
        if below(numbers, 50) == 0 {
            self.edges("long lines with just enough room, and one place less of each", &call);
        }
    }
}

/// A fault in what is handed in or lent, or none that matters.
fn damage(numbers: &mut Rng, call: &mut Call) {
    let n = call.links.n.min(2000);
    match below(numbers, 8) {
        0 => call.order.truncate(below(numbers, n + 1)),
        1 => call.order.push(below(numbers, n + 1) as u32),
        2 if !call.order.is_empty() => {
            let (k, node) = (below(numbers, call.order.len()), below(numbers, n + 2) as u32);
            call.order[k] = node
        }
        3 => call.lent.pool = [1 << 63, usize::MAX, 1 << 62, 1 << 32][below(numbers, 4)],
        4 => call.links.damage(numbers),
        5 => call.limit = u32::MAX,
        _ => {
            let length = &mut *call.lengths()[below(numbers, 18)];
            *length = [*length + 1, length.saturating_sub(1), below(numbers, n + 3)][below(numbers, 3)]
        }
    }
}

/// A graph and an order with room for them, about as much, or too little; a quarter with faults.
fn random_call(numbers: &mut Rng, graph: &InputGraph) -> Call {
    let nodes = graph.get_num_nodes();
    let order = shuffled(numbers, nodes);
    let limit = [0, 1, 2, 3, nodes as u32, nodes as u32 + 1, 100][below(numbers, 7)];
    let mut call = Call::new(graph, &order, limit);
    let arcs = graph.get_edges().len();
    let mut some = |whole: usize, less: usize| if below(numbers, 3) == 0 { less + below(numbers, 4) } else { whole };
    let pool = some(call.lent.pool, arcs.saturating_sub(1));
    let [fwd, bwd] = [call.lent.fwd[0], call.lent.bwd[0]].map(|entries| some(entries, arcs / 2));
    call = call.within(&Room { pool, fwd, bwd });
    if below(numbers, 4) == 0 {
        for _ in 0..1 + below(numbers, 2) {
            damage(numbers, &mut call);
        }
    }
    call
}

impl Part for Builds {
    fn exhaust(&mut self) {
        tiny::each(|graph, order, limit| {
            let call = Call::new(graph, order, limit as u32);
            self.add("all graphs of up to 3 nodes", &call);
            self.edges("them with just enough room, and one place less", &call);
        });
        self.lines();
    }

    fn round(&mut self, numbers: &mut Rng, round: usize) {
        if round % 8 == 7 {
            return self.add("any numbers", &Call::any(numbers));
        }
        if round % 50 == 25 {
            self.long_lines(numbers);
        }
        let graph = random_graph(numbers, round);
        let call = random_call(numbers, &graph);
        self.add("random graphs", &call);
        if round % 50 == 0 && graph.get_num_nodes() <= 40 {
            let order = shuffled(numbers, graph.get_num_nodes());
            self.edges("random graphs with just enough room, and one place less", &Call::new(&graph, &order, call.limit));
        }
    }

    fn tally(&self) -> &Tally {
        &self.0
    }
}
