//! Many routes by one call, beside the same one by one.

mod common;

use common::{case_l, number, prepare_at, round_trip, told, Random};
use ratmanoep::{calc_paths, create_calculator, Error, FastGraph, NodeId};

fn compare(graph: &FastGraph, pairs: &[(NodeId, NodeId)]) {
    let mut calculator = create_calculator(graph);
    let many: Vec<_> = calculator
        .calc_paths(graph, pairs)
        .into_iter()
        .map(|answer| answer.map(told))
        .collect();
    let one_by_one: Vec<_> = pairs
        .iter()
        .map(|&(source, target)| calculator.calc_path(graph, source, target).map(told))
        .collect();
    assert_eq!(many, one_by_one);
}

#[test]
fn random_pairs_some_of_them_no_nodes() {
    let mut random = Random(13);
    for _ in 0..200 {
        let n = 2 + random.below(30);
        let links = random.links(n, 3 * n, 100);
        let graph = prepare_at(&links, &random.order(n), 50).unwrap();
        let count = random.below(100);
        let pairs: Vec<_> = (0..count).map(|_| (random.below(n + 1), random.below(n + 1))).collect();
        compare(&graph, &pairs);
    }
}

#[test]
fn a_walk_longer_than_its_places() {
    let all: Vec<_> = (0..4).flat_map(|source| (0..4).map(move |target| (source, target))).collect();
    compare(&round_trip(), &all);
    assert_eq!(number(calc_paths(&round_trip(), &[(2, 3)]).remove(0)), Some(25));
}

#[test]
fn more_pairs_than_one_call_takes() {
    let pairs: Vec<_> = (0..2_500).map(|k| (k % 3, k % 4)).collect();
    compare(&case_l(), &pairs);
}

#[test]
fn no_pairs_and_no_nodes() {
    assert!(calc_paths(&case_l(), &[]).is_empty());
    let empty = prepare_at(&[], &[], 0).unwrap();
    assert!(calc_paths(&empty, &[]).is_empty());
    let [answer] = calc_paths(&empty, &[(0, 0)]).try_into().unwrap();
    assert_eq!(number(answer), Some(22));
}

#[test]
fn a_wide_node_spoils_its_own_pair_alone() {
    let wide = 1 << 32;
    let [first, second, third] = calc_paths(&case_l(), &[(0, 2), (wide, 2), (0, wide + 1)]).try_into().unwrap();
    assert_eq!(told(first.unwrap()), Some((5, vec![0, 1, 2])));
    assert_eq!(
        second,
        Err(Error::TooWide {
            what: "node",
            number: wide
        })
    );
    assert_eq!(
        third,
        Err(Error::TooWide {
            what: "node",
            number: wide + 1
        })
    );
}
