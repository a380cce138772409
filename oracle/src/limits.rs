//! Memory and time of single calls of the proved code at the limits of document 01.

use crate::answer::crates_build;
use crate::beside::{densest_records, longest_records, Build, Ours, Subject, ENOUGH};
use crate::constants::{NodeId, MAX_ENDS, MAX_LINKS, MAX_NODES};
use crate::guard::bytes_since;
use crate::hierarchies::{complete, tables_of, tower};
use crate::input_graph::{Edge, InputGraph};
use crate::lent::{answer_records, Routes, FILLED};
use crate::meshes::{uniform, Rng};
use crate::random::shuffled;
use crate::stack::with_stack;
use crate::timing::timed;

pub fn measure() {
    println!("{:<80} {:>6} {:>8} {:>8} {:>6} {:>10}", "call", "number", "gives", "KiB", "stack", "ms");
    let built = crates_build(&star(), &hub_first(), 1);
    let mut numbers = Rng(1);
    let order = shuffled(&mut numbers, MAX_NODES);
    let made_up = complete(&mut numbers, &order);
    for (what, graph) in [("built", built), ("made-up", made_up)] {
        let subject = Subject::new(tables_of(&graph, 0), None);
        row(&format!("check of {what} tables with an entry for every two nodes"), || (subject.ours.check(), 0));
        queries(what, &subject);
    }
    unpacking();
    let records = |what: &str, input: Vec<u8>| {
        let mut out = vec![0; ENOUGH];
        row(&format!("records: {what}, {} bytes", input.len()), || (0, answer_records(&input, &mut out)));
    };
    records("a line of 32 nodes, queries from end to end", longest_records());
    records("256 links between 32 nodes", densest_records());
    builds(); // the slowest last
}

/// One call, which gives a number and how much it wrote: what it was handed and lent, the stack that it used, and how long it took, the
/// best of nine where that takes no more than a second.
fn row(what: &str, mut call: impl FnMut() -> (u32, usize)) {
    bytes_since();
    let (((number, gives), mut best), stack) = with_stack(&mut || timed(&mut call));
    let bytes = bytes_since();
    let mut total = best;
    for _ in 1..9 {
        if total < 1.0 {
            let (_, seconds) = timed(&mut call);
            best = best.min(seconds);
            total += seconds;
        }
    }
    println!("{what:<80} {number:>6} {gives:>8} {:>8} {:>6} {:>10.2}", bytes.div_ceil(1024), stack.div_ceil(1024), 1e3 * best);
}

/// Links from the hub, node 0, to all others and back. Without it every two of the others need a shortcut.
fn star() -> InputGraph {
    let there = (1..MAX_NODES).map(|to| Edge { from: 0, to, weight: 1 });
    let back = (1..MAX_NODES).map(|from| Edge { from, to: 0, weight: 1 });
    InputGraph::new(MAX_NODES, there.chain(back).collect())
}

fn hub_first() -> Vec<NodeId> {
    (0..MAX_NODES).collect()
}

/// A pool of n(n - 1) and tables of n(n - 1)/2, which the star fills when its hub comes first.
fn builds() {
    let build = |what: &str, graph: &InputGraph, limit: u32| {
        let call = Build::new(graph, &hub_first(), limit);
        let mut lent = Ours::lent(&call);
        row(&format!("build of {what}, limit {limit}"), || (lent.build(&call), lent.entries(MAX_NODES).iter().sum()));
        row("the crate's build of the same", || {
            let built = crates_build(graph, &hub_first(), limit as usize);
            (0, built.edges_fwd.len() + built.edges_bwd.len())
        });
    };
    let dense = uniform(MAX_NODES, MAX_LINKS);
    for limit in [1, 100, u32::MAX] {
        build("16,384 links between any two of 1,024 nodes, in order", &dense, limit);
    }
    // With limit 0 no arc is a witness: for each pair of ends the arc between them is looked for along a list.
    for limit in [u32::MAX, 1, 0] {
        build("a star, its hub first", &star(), limit);
    }
}

/// One query in scratch and a path of its own.
fn query(what: &str, subject: &Subject, sources: &[u32], targets: &[u32], places: usize) {
    let mut path = vec![FILLED; places];
    let mut scratch = subject.scratch().map(|length| vec![9; length]);
    let offsets = [0; MAX_ENDS];
    row(what, || {
        let (number, _, length) = subject.ours.query((sources, &offsets[..sources.len()]), (targets, &offsets[..targets.len()]), &mut path, &mut scratch);
        (number, length)
    });
}

fn queries(what: &str, subject: &Subject) {
    query(&format!("query over these {what} tables"), subject, &[1], &[2], MAX_NODES);
    let ends = |from: u32| std::array::from_fn::<u32, MAX_ENDS, _>(|k| from + k as u32);
    query("the same with 16 sources and 16 targets", subject, &ends(1), &ends(101), MAX_NODES);
    const PAIRS: usize = 1000;
    let [sources, targets] = [0, 7].map(|from| (from..from + PAIRS as u32).collect::<Vec<u32>>());
    let mut routes = Routes::filled([PAIRS, PAIRS, PAIRS, PAIRS * MAX_NODES]);
    let mut scratch = subject.scratch().map(|length| vec![9; length]);
    row(&format!("{PAIRS} routes in one call over them"), || {
        let number = subject.ours.routes(&sources, &targets, &mut routes, &mut scratch);
        (number, routes.lengths.iter().map(|&length| length as usize).sum())
    });
}

fn unpacking() {
    let last = MAX_NODES - 1;
    let line = InputGraph::new(MAX_NODES, (0..last).map(|from| Edge { from, to: from + 1, weight: 1 }).collect());
    let inner_first: Vec<NodeId> = (1..last).chain([0, last]).collect();
    let line = Subject::new(tables_of(&crates_build(&line, &inner_first, 100), 0), None);
    query("query along a line of 1,024 nodes, a path of as many places", &line, &[0], &[last as u32], MAX_NODES);
    // The entry of rank r opens into 2^r links; 2^40 is the heaviest.
    let order: Vec<NodeId> = (0..42).collect();
    let tower = Subject::new(tables_of(&tower(&order), 0), None);
    for rank in [9, 20, 40] {
        let walk = (1usize << rank) + 1;
        for places in [order.len(), 1 << 20, walk] {
            if places <= 1 << 21 {
                query(&format!("query for a walk of 2^{rank} links, a path of {places} places"), &tower, &[rank], &[41], places);
            }
        }
    }
}
