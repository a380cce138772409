//! The cases of document 01's bench, through this crate.

mod common;

use common::{case_l, number, prepare, prepare_at, told, Link, L};
use ratmanoep::{calc_path, calc_path_multiple_sources_and_targets, get_node_ordering, Table, Tables, WEIGHT_MAX};

#[test]
fn case_l_is_built_and_asked() {
    let graph = case_l();
    let fwd = Table {
        starts: vec![0, 1, 2, 2],
        bases: vec![1, 0],
        neighbours: vec![2, 2],
        weights: vec![3, 5],
        ins: vec![u32::MAX, 0],
        outs: vec![u32::MAX, 0],
    };
    let bwd = Table {
        starts: vec![0, 1, 1, 1],
        bases: vec![1],
        neighbours: vec![0],
        weights: vec![2],
        ins: vec![u32::MAX],
        outs: vec![u32::MAX],
    };
    assert_eq!(
        graph.tables(),
        &Tables {
            ranks: vec![1, 0, 2],
            fwd,
            bwd
        }
    );
    assert_eq!(
        (graph.get_num_nodes(), graph.get_num_out_edges(), graph.get_num_in_edges()),
        (3, 2, 1)
    );
    assert_eq!(get_node_ordering(&graph), [1, 0, 2]);

    assert_eq!(told(calc_path(&graph, 0, 2).unwrap()), Some((5, vec![0, 1, 2])));
    assert_eq!(told(calc_path(&graph, 2, 0).unwrap()), None);
    assert_eq!(told(calc_path(&graph, 1, 1).unwrap()), Some((0, vec![1])));
    assert_eq!(number(calc_path(&graph, 0, 7)), Some(22));
}

#[test]
fn several_sources_and_targets() {
    let ask = |sources, targets| told(calc_path_multiple_sources_and_targets(&case_l(), sources, targets).unwrap());
    assert_eq!(ask(vec![(0, 10), (1, 4)], vec![(2, 0)]), Some((7, vec![1, 2])));
    assert_eq!(ask(vec![(1, 9), (1, 4)], vec![(1, 1)]), Some((5, vec![1])));
    let path = calc_path_multiple_sources_and_targets(&case_l(), vec![(0, 10), (1, 4)], vec![(2, 0)])
        .unwrap()
        .unwrap();
    assert_eq!((path.get_source(), path.get_target(), path.is_found()), (1, 2, true));
}

#[test]
fn a_link_beside_the_shortcut() {
    let with = |weight| {
        let graph = prepare(&[L[0], L[1], (0, 2, weight)], &[1, 0, 2]).unwrap();
        told(calc_path(&graph, 0, 2).unwrap())
    };
    assert_eq!(with(5), Some((5, vec![0, 2])));
    assert_eq!(with(6), Some((5, vec![0, 1, 2])));
}

#[test]
fn the_limit_may_choose_among_equal_routes() {
    let links = [(0, 1, 1), (0, 2, 1), (1, 3, 1), (2, 3, 1)];
    let by = |limit| told(calc_path(&prepare_at(&links, &[1, 2, 0, 3], limit).unwrap(), 0, 3).unwrap());
    assert_eq!(by(2), Some((2, vec![0, 2, 3])));
    assert_eq!(by(0), Some((2, vec![0, 1, 3])));
    assert_eq!(by(1), Some((2, vec![0, 1, 3])));
}

#[test]
fn orders() {
    assert_eq!(number(prepare(&L, &[1, 1, 2])), Some(8));
    assert_eq!(number(prepare(&L, &[0, 1])), Some(7));
    assert_eq!(number(prepare(&L, &[0, 1, 3])), Some(8));
}

#[test]
fn node_counts() {
    let nodes = |n: usize| prepare(&[(0, n - 1, 1)], &(0..n).collect::<Vec<_>>());
    assert_eq!(nodes(1_024).unwrap().get_num_nodes(), 1_024);
    assert_eq!(number(nodes(1_025)), Some(1));
}

#[test]
fn the_long_line() {
    let line = |last: usize, beside: &[Link]| {
        let links: Vec<Link> = (0..last).map(|k| (k, k + 1, 4_294_967_295)).chain(beside.iter().copied()).collect();
        let order: Vec<usize> = (1..last).chain([0, last]).collect();
        prepare(&links, &order)
    };
    let path = calc_path(&line(256, &[]).unwrap(), 0, 256).unwrap().unwrap();
    assert_eq!((path.get_weight(), path.get_nodes().len()), (256 * 4_294_967_295, 257));
    assert_eq!(number(line(257, &[])), Some(12));
    // a way beside the sum that is too large
    assert_eq!(told(calc_path(&line(257, &[(0, 257, 1)]).unwrap(), 0, 257).unwrap()), Some((1, vec![0, 257])));
}

#[test]
fn offsets() {
    let at = |offset| calc_path_multiple_sources_and_targets(&case_l(), vec![(0, offset)], vec![(2, 0)]);
    assert_eq!(told(at(1 << 40).unwrap()), Some(((1 << 40) + 5, vec![0, 1, 2])));
    assert_eq!(number(at((1 << 40) + 1)), Some(23));
    assert_eq!(told(at(WEIGHT_MAX).unwrap()), None);
}

#[test]
fn no_nodes() {
    let graph = prepare(&[], &[]).unwrap();
    assert_eq!(
        (graph.tables().fwd.starts.as_slice(), graph.tables().bwd.starts.as_slice()),
        ([0].as_slice(), [0].as_slice())
    );
    assert_eq!(number(calc_path(&graph, 0, 0)), Some(22));
}
