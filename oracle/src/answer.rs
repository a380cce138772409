//! Puts the answer into a case. The crate's answers are taken where it has one; the numbered refusals
//! around it are ours, in the order of document 01.

use crate::constants::*;
use crate::fail;
use crate::fast_graph::{FastGraph, FastGraphEdge};
use crate::fast_graph_builder::{FastGraphBuilder, ParamsWithOrder};
use crate::input_graph::{Edge, InputGraph};
use crate::json::Json;
use crate::path_calculator::PathCalculator;
use crate::preparation_graph::PreparationGraph;
use crate::room::{contract_within, Room};
use crate::shortest_path::ShortestPath;
use crate::tables::{equally_long, is_permutation, Checked, Tables};
use crate::witness_search::WitnessSearch;

/// The crate unpacks a walk before anything is known of its length; tables that open into more links
/// than this are left unanswered.
const MOST_OPENED: u64 = 1 << 20;

pub fn answer(case: &mut Json, with_peak: bool) {
    match case.get("kind").word() {
        "build" => build(case, with_peak),
        "check" => case.set("number", Json::Number(if Tables::of(case).read().is_some() { 0 } else { 20 })),
        "query" => query(case),
        "search" => search(case),
        kind => fail(&format!("there is no kind {kind}")),
    }
}

pub fn no_answer(case: &mut Json, why: &str) {
    case.set("no answer", Json::Word(why.to_string()));
}

/// What a build is lent: how many places of each column, and whether scratch is below its formula.
#[derive(Clone, Copy, Debug)]
pub struct Lent {
    pub ranks: usize,
    pub fwd_starts: usize,
    pub bwd_starts: usize,
    pub fwd: [usize; 5],
    pub bwd: [usize; 5],
    pub pool: usize,
    pub scratch_short: bool,
}

impl Lent {
    pub fn of(case: &Json) -> Lent {
        let lent = case.get("lent");
        let five = |name: &str| <[usize; 5]>::try_from(lent.get(name).ids()).unwrap_or_else(|_| fail("a table has five columns"));
        Lent {
            ranks: lent.get("ranks").id(),
            fwd_starts: lent.get("fwd_starts").id(),
            bwd_starts: lent.get("bwd_starts").id(),
            fwd: five("fwd"),
            bwd: five("bwd"),
            pool: case.get("pool").id(),
            scratch_short: false,
        }
    }
}

fn build(case: &mut Json, with_peak: bool) {
    let lent = Lent::of(case);
    let filled = case.get("filled_with").number();
    let built = links(case).and_then(|graph| build_within(&graph, &case.get("order").ids(), case.get("limit").id(), &lent));
    let (number, entries, peak) = match &built {
        Ok((graph, peak)) => (0, [graph.edges_fwd.len() as u64, graph.edges_bwd.len() as u64], *peak),
        Err(number) => (*number, [0, 0], 0),
    };
    set_built(case, number, entries, &places(&lent, &built, filled));
    if with_peak {
        case.set("peak", Json::Number(peak as u64));
    }
}

/// A build's number, how many entries each table has, and every lent place in the order of `places`.
pub fn set_built(case: &mut Json, number: u64, entries: [u64; 2], places: &[Vec<u64>]) {
    let mut columns = places.iter().map(|column| Json::of(column));
    let mut next = || columns.next().unwrap();
    let (ranks, fwd_starts) = (next(), next());
    let fwd = Json::List((0..5).map(|_| next()).collect());
    let bwd_starts = next();
    let bwd = Json::List((0..5).map(|_| next()).collect());
    let after = [("ranks", ranks), ("fwd_starts", fwd_starts), ("bwd_starts", bwd_starts), ("fwd", fwd), ("bwd", bwd)];
    case.set("number", Json::Number(number));
    case.set("entries", Json::of(&entries));
    case.set("after", Json::Object(after.map(|(name, column)| (name.to_string(), column)).into()));
}

/// The hierarchy and the most live arcs, or the number of the refusal.
pub fn build_within(graph: &InputGraph, order: &[NodeId], limit: usize, lent: &Lent) -> Result<(FastGraph, usize), u64> {
    let nodes = graph.get_num_nodes();
    if order.len() != nodes {
        return Err(7);
    }
    if !is_permutation(order) {
        return Err(8);
    }
    if lent.ranks < nodes
        || lent.fwd_starts < nodes + 1
        || lent.bwd_starts < nodes + 1
        || !equally_long(&lent.fwd)
        || !equally_long(&lent.bwd)
        || lent.scratch_short
    {
        return Err(9);
    }
    let room = Room { pool: lent.pool, fwd: lent.fwd[0], bwd: lent.bwd[0] };
    let peak = contract_within(graph, order, limit, &room)?;
    Ok((crates_build(graph, order, limit), peak))
}

/// The crate's build of links and an order that it takes.
pub fn crates_build(graph: &InputGraph, order: &[NodeId], limit: usize) -> FastGraph {
    let params = ParamsWithOrder::new(limit);
    FastGraphBuilder::build_with_order_with_params(graph, order, &params).unwrap_or_else(|why| fail(&why))
}

/// Every lent place after a build: ranks, and for each table starts, bases, neighbours, weights and the two numbers. What was used
/// comes first, then what the places beyond hold.
pub fn places(lent: &Lent, built: &Result<(FastGraph, usize), u64>, filled: u64) -> [Vec<u64>; 13] {
    let none = FastGraph::default();
    let (graph, rest, weight_rest) = match built {
        Ok((graph, _)) => (graph, filled, filled),
        Err(10..=12) => (&none, INVALID_NODE as u64, WEIGHT_MAX),
        Err(_) => (&none, filled, filled),
    };
    let ids = |length: usize, used: &[usize]| column(length, used.iter().map(|&id| id as u64), rest);
    let side = |lengths: &[usize; 5], used: &[FastGraphEdge], k: usize| {
        column(lengths[k], used.iter().map(|e| entry(e)[k]), if k == 2 { weight_rest } else { rest })
    };
    let (fwd, bwd) = (|k| side(&lent.fwd, &graph.edges_fwd, k), |k| side(&lent.bwd, &graph.edges_bwd, k));
    [
        ids(lent.ranks, &graph.ranks),
        ids(lent.fwd_starts, &graph.first_edge_ids_fwd),
        fwd(0),
        fwd(1),
        fwd(2),
        fwd(3),
        fwd(4),
        ids(lent.bwd_starts, &graph.first_edge_ids_bwd),
        bwd(0),
        bwd(1),
        bwd(2),
        bwd(3),
        bwd(4),
    ]
}

/// The links of a case, or refusals 1 to 6.
fn links(case: &Json) -> Result<InputGraph, u64> {
    let columns = case.get("links");
    let (from, to) = (columns.get("from").ids(), columns.get("to").ids());
    checked(case.get("nodes").id(), &from, &to, &columns.get("weight").numbers())
}

/// Columns as the links of a graph, or refusals 1 to 6.
pub fn checked(nodes: usize, from: &[NodeId], to: &[NodeId], weight: &[Weight]) -> Result<InputGraph, u64> {
    if nodes > MAX_NODES {
        return Err(1);
    }
    if !equally_long(&[from.len(), to.len(), weight.len()]) || from.len() > MAX_LINKS {
        return Err(2);
    }
    let edge = |i| Edge { from: from[i], to: to[i], weight: weight[i] };
    let edges: Vec<Edge> = (0..from.len()).map(edge).collect();
    if edges.iter().any(|e| e.from >= nodes || e.to >= nodes) {
        return Err(3);
    }
    if edges.iter().any(|e| e.from == e.to) {
        return Err(4);
    }
    if edges.iter().any(|e| e.weight == 0) {
        return Err(5);
    }
    if !edges.is_sorted_by(|a, b| (a.from, a.to) < (b.from, b.to)) {
        return Err(6);
    }
    Ok(InputGraph::new(nodes, edges))
}

fn column(length: usize, used: impl Iterator<Item = u64>, rest: u64) -> Vec<u64> {
    used.chain(std::iter::repeat(rest)).take(length).collect()
}

/// An entry in the order of its columns.
pub fn entry(e: &FastGraphEdge) -> [u64; 5] {
    let ids = [e.base_node, e.adj_node, e.replaced_in_edge, e.replaced_out_edge];
    let [base, adj, in_edge, out_edge] = ids.map(|id| id as u64);
    [base, adj, e.weight, in_edge, out_edge]
}

fn query(case: &mut Json) {
    let asked = Asked::of(case);
    let found = query_within(Tables::of(case).read().as_ref(), &asked);
    match handed_back(&asked, found) {
        Some(answered) => set_answered(case, answered),
        None => no_answer(case, "an entry opens into more than 2^20 links"),
    }
}

pub fn set_answered(case: &mut Json, Answered { number, weight, length, path }: Answered) {
    case.set("number", Json::Number(number));
    case.set("weight", Json::Number(weight));
    case.set("length", Json::Number(length as u64));
    case.set("path", Json::of(&path));
}

/// The ends of one side, in columns that may differ in length.
#[derive(Clone, Debug, Default)]
pub struct Ends {
    pub nodes: Vec<NodeId>,
    pub offsets: Vec<Weight>,
}

impl Ends {
    fn of(list: &Json) -> Ends {
        let ends = list.list();
        Ends {
            nodes: ends.iter().map(|end| end.list()[0].id()).collect(),
            offsets: ends.iter().map(|end| end.list()[1].number()).collect(),
        }
    }

    /// One node at offset 0.
    pub fn one(node: NodeId) -> Ends {
        Ends { nodes: vec![node], offsets: vec![0] }
    }

    pub fn pairs(&self) -> Vec<(NodeId, Weight)> {
        self.nodes.iter().copied().zip(self.offsets.iter().copied()).collect()
    }
}

/// What a query is handed besides the tables, and what it is lent: the places of its path, what they hold, and whether scratch is below
/// its formula.
#[derive(Clone, Debug)]
pub struct Asked {
    pub sources: Ends,
    pub targets: Ends,
    pub places: usize,
    pub filled: u64,
    pub scratch_short: bool,
}

impl Asked {
    pub fn of(case: &Json) -> Asked {
        Asked {
            sources: Ends::of(case.get("sources")),
            targets: Ends::of(case.get("targets")),
            places: case.get("path_places").id(),
            filled: case.get("filled_with").number(),
            scratch_short: false,
        }
    }
}

/// Why there is no route and no "none": a refusal, or tables that open into more links than the crate is let unpack.
pub enum Stop {
    Refused(u64),
    TooManyOpened,
}

/// The route or "none", on tables that were read.
pub fn query_within(tables: Option<&Checked>, asked: &Asked) -> Result<Option<ShortestPath>, Stop> {
    query_on(tables.ok_or(Stop::Refused(20))?, asked)
}

/// The same on tables that keep the rules.
pub fn query_on(tables: &Checked, asked: &Asked) -> Result<Option<ShortestPath>, Stop> {
    let graph = &tables.graph;
    let nodes = graph.get_num_nodes();
    let sides = [&asked.sources, &asked.targets];
    if sides.iter().any(|ends| ends.nodes.len() != ends.offsets.len() || !(1..=MAX_ENDS).contains(&ends.nodes.len())) {
        return Err(Stop::Refused(21));
    }
    if sides.iter().any(|ends| ends.nodes.iter().any(|&node| node >= nodes)) {
        return Err(Stop::Refused(22));
    }
    if sides.iter().any(|ends| ends.offsets.iter().any(|&offset| offset > MAX_SUM && offset != WEIGHT_MAX)) {
        return Err(Stop::Refused(23));
    }
    if asked.places < nodes || asked.scratch_short {
        return Err(Stop::Refused(24));
    }
    if tables.longest_opening > MOST_OPENED {
        return Err(Stop::TooManyOpened);
    }
    let found = PathCalculator::new(nodes)
        .calc_path_multiple_sources_and_targets(graph, asked.sources.pairs(), asked.targets.pairs());
    match found {
        Some(path) if path.nodes.len() > asked.places => Err(Stop::Refused(25)),
        found => Ok(found),
    }
}

/// A query's number and weight, how many places of the path are the walk, and what every place holds.
#[derive(Debug, PartialEq)]
pub struct Answered {
    pub number: u64,
    pub weight: Weight,
    pub length: usize,
    pub path: Vec<u64>,
}

/// What a query hands back; nothing where the crate was not let unpack.
pub fn handed_back(asked: &Asked, found: Result<Option<ShortestPath>, Stop>) -> Option<Answered> {
    let (number, found) = match found {
        Ok(found) => (0, found),
        Err(Stop::Refused(number)) => (number, None),
        Err(Stop::TooManyOpened) => return None,
    };
    let (weight, walk) = found.map_or((WEIGHT_MAX, vec![]), |path| (path.weight, path.nodes));
    let path = column(asked.places, walk.iter().map(|&node| node as u64), asked.filled);
    Some(Answered { number, weight, length: walk.len(), path })
}

fn search(case: &mut Json) {
    const ASKS: &str = "asks_target_sum_answer_count";
    let (start, avoid) = (case.get("start").id(), case.get("avoid").id());
    let asks: Vec<Vec<u64>> = case.get(ASKS).list().iter().map(Json::numbers).collect();
    if start == avoid || asks.iter().any(|ask| ask[0] as usize == avoid) {
        return no_answer(case, "the crate does not search from or to the node it avoids");
    }
    let Ok(input_graph) = links(case) else { fail("a search has links that a build refuses") };
    let graph = PreparationGraph::from_input_graph(&input_graph);
    let limit = case.get("limit").id();
    let mut witness_search = WitnessSearch::new(graph.get_num_nodes());
    witness_search.init(start, avoid);
    let answered = asks.iter().map(|ask| {
        let weight = witness_search.find_max_weight(&graph, ask[0] as usize, ask[1], limit);
        Json::of(&[ask[0], ask[1], weight, witness_search.settled() as u64])
    });
    case.set(ASKS, Json::List(answered.collect()));
}
