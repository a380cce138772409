//! Random graphs, orders and limits, beside a slow search that is hard to get wrong.

mod common;

use common::{is_walk, least, prepare_at, told, Link, Random};
use ratmanoep::{
    calc_path_multiple_sources_and_targets, create_calculator, Error, FastGraph, PathCalculator, Refusal, Table, Tables, WEIGHT_MAX,
};

/// All pairs, or so many targets of each node.
fn compare(random: &mut Random, calculator: &mut PathCalculator, graph: &FastGraph, links: &[Link], targets: usize) {
    let n = graph.get_num_nodes();
    for source in 0..n {
        let least = least(n, links, source);
        for k in 0..targets.min(n) {
            let target = if targets < n { random.below(n) } else { k };
            let answer = told(calculator.calc_path(graph, source, target).unwrap());
            assert_eq!(answer.as_ref().map(|a| a.0), least[target], "{source} to {target} of {links:?}");
            if let Some((weight, nodes)) = answer {
                assert_eq!((nodes.first(), nodes.last()), (Some(&source), Some(&target)));
                assert!(is_walk(links, &nodes, weight));
            }
        }
    }
}

#[test]
fn small_graphs() {
    let mut random = Random(9);
    // one calculator for graphs of all sizes
    let mut calculator = PathCalculator::default();
    for _ in 0..1_000 {
        let n = 2 + random.below(11);
        let count = 1 + random.below(4 * n);
        let weights = [1, 4, 1_000, 4_294_967_295][random.below(4)];
        let links = random.links(n, count, weights);
        let limit = [0, 1, 2, 100, 4_294_967_295][random.below(5)];
        let graph = prepare_at(&links, &random.order(n), limit).unwrap();
        compare(&mut random, &mut calculator, &graph, &links, n);
    }
}

/// A random order of many nodes leaves so many shortcuts that the first room is not enough.
#[test]
fn a_graph_that_outgrows_its_first_room() {
    let mut random = Random(10);
    let n = 300;
    let links = random.links(n, 4 * n, 1_000);
    let graph = prepare_at(&links, &random.order(n), 0).unwrap();
    assert!(graph.get_num_out_edges() > 16 * n + 64);
    compare(&mut random, &mut create_calculator(&graph), &graph, &links, 5);
}

#[test]
fn several_ends() {
    let mut random = Random(11);
    for _ in 0..300 {
        let n = 2 + random.below(11);
        let count = 3 * n;
        let links = random.links(n, count, 10);
        let graph = prepare_at(&links, &random.order(n), 100).unwrap();
        let mut ends = || {
            let count = 1 + random.below(4);
            (0..count)
                .map(|_| (random.below(n), [0, 1, 5, WEIGHT_MAX][random.below(4)]))
                .collect::<Vec<_>>()
        };
        let (sources, targets) = (ends(), ends());
        let mut best = None;
        for &(source, before) in sources.iter().filter(|s| s.1 != WEIGHT_MAX) {
            let least = least(n, &links, source);
            for &(target, after) in targets.iter().filter(|t| t.1 != WEIGHT_MAX) {
                let sum = least[target].map(|w| before + w + after);
                best = [best, sum].into_iter().flatten().min();
            }
        }
        let answer = calc_path_multiple_sources_and_targets(&graph, sources, targets).unwrap();
        assert_eq!(answer.map(|path| path.get_weight()), best);
    }
}

/// The same order gives the same tables, and the order of a prepared graph prepares it again.
#[test]
fn the_order_of_a_prepared_graph() {
    let mut random = Random(12);
    let links = random.links(50, 200, 100);
    let order = random.order(50);
    let graph = prepare_at(&links, &order, 100).unwrap();
    assert_eq!(graph.get_node_ordering(), order);
    assert_eq!(prepare_at(&links, &graph.get_node_ordering(), 100), Ok(graph));
}

/// Another number at a random place of a random column, or a column cut short.
fn damage(random: &mut Random, tables: &mut Tables) {
    let Tables { ranks, fwd, bwd } = tables;
    let Table {
        starts,
        bases,
        neighbours,
        weights,
        ins,
        outs,
    } = if random.below(2) == 0 { fwd } else { bwd };
    let number = [0, 1, 2, 3, 7, u32::MAX][random.below(6)];
    let column = match random.below(8) {
        0 => ranks,
        1 => starts,
        2 => bases,
        3 => neighbours,
        4 => ins,
        5 => outs,
        6 => {
            if !weights.is_empty() {
                let at = random.below(weights.len());
                weights[at] = number as u64;
            }
            return;
        }
        _ => {
            weights.pop();
            return;
        }
    };
    if !column.is_empty() {
        let at = random.below(column.len());
        column[at] = number;
    }
}

/// Damaged tables are refused with 20, or whatever is asked of them has an answer.
#[test]
fn damaged_tables() {
    let mut random = Random(14);
    let mut passed = 0;
    for _ in 0..20_000 {
        let n = 2 + random.below(7);
        let links = random.links(n, 2 * n, 5);
        let mut tables = prepare_at(&links, &random.order(n), 100).unwrap().tables().clone();
        damage(&mut random, &mut tables);
        match FastGraph::from_tables(n, tables) {
            Err(error) => assert_eq!(error, Error::Refused(Refusal::BadTables)),
            Ok(graph) => {
                passed += 1;
                let ends = (random.below(n), random.below(n));
                let answer = create_calculator(&graph).calc_path(&graph, ends.0, ends.1);
                assert!(answer.is_ok() || answer == Err(Error::Refused(Refusal::WalkTooLong)));
            }
        }
    }
    assert!((1_000..19_000).contains(&passed), "{passed}");
}
