//! Times the proved code and the crate on the meshes, in turn in one process, so that other work on the machine falls on both.

use crate::answer::crates_build;
use crate::beside::{Build, Ours, Subject};
use crate::constants::{NodeId, WEIGHT_MAX};
use crate::fail;
use crate::fast_graph::FastGraph;
use crate::fast_graph_builder::{FastGraphBuilder, Params};
use crate::hierarchies::tables_of;
use crate::input_graph::InputGraph;
use crate::lent::{Routes, FILLED};
use crate::meshes::{mesh, Rng, NAMES};
use crate::path_calculator::PathCalculator;
use crate::random::below;
use crate::room::{contract_within, Room};
#[cfg(before)]
use crate::{constants::MAX_NODES, hierarchies::complete, lent::Hierarchy, random::shuffled};
use std::time::Instant;

const LIMIT: usize = 100;
const QUERIES: usize = 1000;
/// So many queries at a time, since other work on the machine seldom leaves a long run alone.
const AT_A_TIME: usize = 50;

/// A mesh, the order that the crate's `run_contraction` chooses for it, and the tables that the crate builds with that.
struct Mesh {
    name: String,
    graph: InputGraph,
    order: Vec<NodeId>,
    built: FastGraph,
}

impl Mesh {
    fn new(name: &&str) -> Mesh {
        let graph = mesh(name);
        let chosen = FastGraphBuilder::build_with_params(&graph, &Params::default());
        let mut order = vec![0; chosen.ranks.len()];
        for (node, &rank) in chosen.ranks.iter().enumerate() {
            order[rank] = node;
        }
        let built = crates_build(&graph, &order, LIMIT);
        Mesh { name: name.to_string(), graph, order, built }
    }
}

/// All meshes, or those named.
pub fn time(names: &[&str]) {
    let meshes: Vec<Mesh> = if names.is_empty() { &NAMES } else { names }.iter().map(Mesh::new).collect();
    println!("builds (limit {LIMIT}, columns and scratch allocated and filled in the time)");
    println!("graph     nodes  links  entries   ours ms  crate ms  ours/crate");
    meshes.iter().for_each(time_builds);
    println!("\nqueries, us each; over the crate's");
    println!("graph      crate   whole   check   empty    whole  check  whole - check  whole - empty");
    meshes.iter().for_each(time_queries);
    println!("\nmany routes, {QUERIES} pairs in one call, us each");
    println!("graph      crate    ours  of it the check  ours/crate  without the check");
    meshes.iter().for_each(time_routes);
}

/// The table check beside that of another archive, on all meshes or those named, and on tables with an entry for every two of 1,024 nodes.
#[cfg(before)]
pub fn time_checks(names: &[&str]) {
    let names: &[&str] = if names.is_empty() { &NAMES } else { names };
    let meshes = names.iter().map(|name| (name.to_string(), Mesh::new(name).built));
    let mut numbers = Rng(1);
    let order = shuffled(&mut numbers, MAX_NODES);
    let densest = ("densest".to_string(), complete(&mut numbers, &order));
    println!("table check, us; over that of before");
    println!("tables     nodes  entries    before     after  after/before");
    for (name, graph) in meshes.chain([densest]) {
        let entries = graph.edges_fwd.len() + graph.edges_bwd.len();
        let tables = Hierarchy::of(&tables_of(&graph, 0));
        let times = (4_000_000 / entries).max(1);
        let mut least = [f64::MAX; 2];
        for _ in 0..20 {
            let best = best_of([
                &mut || (0..times).filter(|_| tables.check_before() == 0).count(),
                &mut || (0..times).filter(|_| tables.check() == 0).count(),
            ]);
            least = [least[0].min(best[0]), least[1].min(best[1])];
        }
        let [before, after] = least.map(|seconds| 1e6 * seconds / times as f64);
        println!("{name:<10} {:>5} {entries:>8} {before:>9.2} {after:>9.2} {:>13.3}", graph.ranks.len(), after / before);
    }
}

pub fn timed<T>(work: impl FnOnce() -> T) -> (T, f64) {
    let start = Instant::now();
    let result = work();
    (result, start.elapsed().as_secs_f64())
}

/// The best of nine runs of each, in turn; all must give the same.
fn best_of<const N: usize>(mut runs: [&mut dyn FnMut() -> usize; N]) -> [f64; N] {
    let mut least = [f64::MAX; N];
    let mut given = None;
    for _ in 0..9 {
        for (run, least) in runs.iter_mut().zip(&mut least) {
            let (result, seconds) = timed(run);
            *least = least.min(seconds);
            if *given.get_or_insert(result) != result {
                fail("a mesh came out otherwise");
            }
        }
    }
    least
}

/// Ours with its columns and scratch filled anew each time, the crate with its own allocations.
fn time_builds(mesh: &Mesh) {
    let Mesh { name, graph, order, built } = mesh;
    let (fwd, bwd) = (built.edges_fwd.len(), built.edges_bwd.len());
    let enough = Room { pool: usize::MAX, fwd, bwd };
    let Ok(pool) = contract_within(graph, order, LIMIT, &enough) else { fail("a pair sum is refused") };
    let call = Build::new(graph, order, LIMIT as u32).within(&Room { pool, fwd, bwd });
    let entries = |[fwd, bwd]: [usize; 2]| fwd + bwd;
    let [ours, theirs] = best_of([
        &mut || {
            let mut lent = Ours::lent(&call);
            lent.build(&call);
            entries(lent.entries(order.len()))
        },
        &mut || {
            let built = crates_build(graph, order, LIMIT);
            entries([built.edges_fwd.len(), built.edges_bwd.len()])
        },
    ]);
    print!("{name:<10} {:>4} {:>6} {:>8}", order.len(), graph.get_edges().len(), fwd + bwd);
    println!(" {:>9.2} {:>9.2} {:>11.2}", 1e3 * ours, 1e3 * theirs, ours / theirs);
}

/// Random pairs of a mesh, and what the crate answers for them.
struct Pairs<'a> {
    built: &'a FastGraph,
    calculator: PathCalculator,
    pairs: Vec<[NodeId; 2]>,
    answers: Vec<Answer>,
}

/// Number, weight, and how many nodes the walk has.
type Answer = (u32, u64, usize);
const NONE: Answer = (0, WEIGHT_MAX, 0);

impl Pairs<'_> {
    fn new(mesh: &Mesh) -> Pairs<'_> {
        let nodes = mesh.order.len();
        let mut numbers = Rng(1);
        let pairs: Vec<[NodeId; 2]> = (0..QUERIES).map(|_| [(); 2].map(|_| below(&mut numbers, nodes))).collect();
        let mut drawn = Pairs { built: &mesh.built, calculator: PathCalculator::new(nodes), pairs, answers: Vec::new() };
        drawn.answers = (0..QUERIES).map(|k| drawn.crates(k)).collect();
        drawn
    }

    /// The crate's answer for a pair, its calculator made once.
    fn crates(&mut self, k: usize) -> Answer {
        let [source, target] = self.pairs[k];
        self.calculator.calc_path(self.built, source, target).map_or(NONE, |path| (0, path.weight, path.nodes.len()))
    }
}

/// Queries of one source and one target by both, our scratch left as each call leaves it. Beside them the table check, which each of our calls
/// makes, and calls with ends that do not count: they check the tables, clear the labels and have nothing to find.
fn time_queries(mesh: &Mesh) {
    let subject = Subject::new(tables_of(&mesh.built, 0), None);
    let mut drawn = Pairs::new(mesh);
    let (pairs, answers) = (drawn.pairs.clone(), drawn.answers.clone());
    let asking = |offset: u64| {
        let mut path = vec![FILLED; subject.nodes()];
        let mut scratch = subject.scratch().map(|length| vec![9; length]);
        let ours = &subject.ours;
        move |pair: &[NodeId; 2]| {
            let [source, target] = pair.map(|node| node as u32);
            ours.query((&[source], &[offset]), (&[target], &[offset]), &mut path, &mut scratch)
        }
    };
    let (mut ask, mut ask_nothing) = (asking(0), asking(WEIGHT_MAX));
    let mut seconds = [0.0; 4];
    // Each gives how many came out as they must.
    for first in (0..QUERIES).step_by(AT_A_TIME) {
        let some = first..first + AT_A_TIME;
        let best = best_of([
            &mut || some.clone().filter(|&k| drawn.crates(k) == answers[k]).count(),
            &mut || some.clone().filter(|&k| ask(&pairs[k]) == answers[k]).count(),
            &mut || some.clone().filter(|_| subject.ours.check() == 0).count(),
            &mut || some.clone().filter(|&k| ask_nothing(&pairs[k]) == NONE).count(),
        ]);
        seconds.iter_mut().zip(best).for_each(|(sum, best)| *sum += best);
    }
    let [theirs, whole, check, empty] = seconds.map(|seconds| 1e6 * seconds / QUERIES as f64);
    let [a, b, c, d] = [whole, check, whole - check, whole - empty].map(|time| time / theirs);
    print!("{:<10} {theirs:>5.2} {whole:>7.2} {check:>7.2} {empty:>7.2} ", mesh.name);
    println!("{a:>8.2} {b:>6.2} {c:>14.2} {d:>14.2}");
}

/// All pairs in one call of ours, beside the crate's calculator asked for one after the other; and the table check, which ours makes once.
fn time_routes(mesh: &Mesh) {
    let subject = Subject::new(tables_of(&mesh.built, 0), None);
    let mut drawn = Pairs::new(mesh);
    let [sources, targets] = [0, 1].map(|side| drawn.pairs.iter().map(|pair| pair[side] as u32).collect::<Vec<u32>>());
    let answers = drawn.answers.clone();
    let mut lent = Routes::filled([QUERIES, QUERIES, QUERIES, QUERIES * subject.nodes()]);
    let mut scratch = subject.scratch().map(|length| vec![9; length]);
    let [theirs, many, check] = best_of([
        &mut || (0..QUERIES).filter(|&k| drawn.crates(k) == answers[k]).count(),
        &mut || {
            subject.ours.routes(&sources, &targets, &mut lent, &mut scratch);
            (0..QUERIES).filter(|&k| (lent.numbers[k], lent.weights[k], lent.lengths[k] as usize) == answers[k]).count()
        },
        &mut || if subject.ours.check() == 0 { QUERIES } else { 0 },
    ])
    .map(|seconds| 1e6 * seconds / QUERIES as f64);
    print!("{:<10} {theirs:>5.2} {many:>7.2} {check:>16.2}", mesh.name);
    println!(" {:>11.2} {:>18.2}", many / theirs, (many - check) / theirs);
}
