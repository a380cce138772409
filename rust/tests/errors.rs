//! What cannot be done is an error and leaves everything as it was.

mod common;

use common::{case_l, graph, number, prepare, prepare_at, round_trip, Link, L};
use ratmanoep::{calc_path, calc_path_multiple_sources_and_targets, prepare_with_order, Error, FastGraph, InputGraph, Refusal, Tables};

#[test]
fn every_number_has_its_refusal_and_sentence() {
    let numbers: Vec<u32> = (0..100).filter_map(Refusal::from_number).map(Refusal::number).collect();
    assert_eq!(numbers, (1..=12).chain(20..=25).collect::<Vec<u32>>());
    assert_eq!(
        Refusal::OrderNode.to_string(),
        "refused 8: order names a node not below the count, or one twice"
    );
    assert_eq!(Error::from(Refusal::Offset).number(), Some(23));
}

#[test]
fn an_edge_that_is_no_link_is_not_added() {
    let mut graph = InputGraph::new();
    assert_eq!(graph.add_edge(0, 1, 2), Ok(1));
    assert_eq!(graph.add_edge_bidir(1, 2, 3), Ok(2));
    assert_eq!(number(graph.add_edge(9, 9, 1)), Some(4));
    assert_eq!(number(graph.add_edge(0, 9, 0)), Some(5));
    assert_eq!(number(graph.add_edge_bidir(9, 9, 1)), Some(4));
    graph.freeze().unwrap();
    assert_eq!((graph.get_num_nodes(), graph.get_num_edges()), (Ok(3), Ok(3)));
}

#[test]
fn wide_numbers_are_not_cut() {
    let wide = 1 << 32;
    let too_wide = |what| Error::TooWide { what, number: wide };
    let mut open = InputGraph::new();
    assert_eq!(open.add_edge(wide, 0, 1), Err(too_wide("node")));
    assert_eq!(open.add_edge(0, wide, 1), Err(too_wide("node")));
    assert_eq!(open.add_edge(0, 1, wide), Err(too_wide("weight")));
    assert_eq!(
        open.add_edge(usize::MAX, 0, 1),
        Err(Error::TooWide {
            what: "node",
            number: usize::MAX
        })
    );
    assert_eq!(open.add_edge(0, 1, wide - 1), Ok(1));
    assert_eq!(prepare(&L, &[0, 1, wide]), Err(too_wide("node")));
    assert_eq!(prepare_at(&L, &[0, 1, 2], wide), Err(too_wide("settled limit")));
    assert_eq!(calc_path(&case_l(), wide, 0), Err(too_wide("node")));
    assert_eq!(
        calc_path(&case_l(), 0, wide + 2),
        Err(Error::TooWide {
            what: "node",
            number: wide + 2
        })
    );
    assert_eq!(too_wide("node").to_string(), "node 4294967296 has more than 32 bits");
}

#[test]
fn the_largest_node_id_is_refused_as_too_many_nodes() {
    assert_eq!(number(prepare(&[(0, u32::MAX as usize, 1)], &[])), Some(1));
}

#[test]
fn frozen_or_not() {
    let mut open = InputGraph::new();
    assert_eq!(open.get_num_nodes(), Err(Error::NotFrozen));
    assert_eq!(open.get_num_edges(), Err(Error::NotFrozen));
    assert_eq!(open.get_edges(), Err(Error::NotFrozen));
    assert_eq!(prepare_with_order(&open, &[]), Err(Error::NotFrozen));
    open.freeze().unwrap();
    assert_eq!(open.freeze(), Err(Error::Frozen));
    assert_eq!(open.add_edge(0, 1, 1), Err(Error::Frozen));
    assert_eq!(open.add_edge_bidir(0, 1, 1), Err(Error::Frozen));
}

#[test]
fn freezing_sorts_and_keeps_the_least_of_equal_ends() {
    let frozen = graph(&[(1, 2, 3), (0, 1, 9), (0, 1, 2), (0, 1, 5)]);
    let edges: Vec<Link> = frozen.get_edges().unwrap().iter().map(|e| (e.from, e.to, e.weight)).collect();
    assert_eq!(edges, [(0, 1, 2), (1, 2, 3)]);
    assert_eq!(format!("{frozen:?}"), "g.add_edge(0, 1, 2);\ng.add_edge(1, 2, 3);\n");
}

#[test]
fn link_counts() {
    let all: Vec<Link> = (0..130)
        .flat_map(|from| (0..130).filter(move |&to| to != from).map(move |to| (from, to, 1)))
        .collect();
    let order: Vec<usize> = (0..130).collect();
    assert!(prepare(&all[..16_384], &order).is_ok());
    assert_eq!(number(prepare(&all[..16_385], &order)), Some(2));
}

#[test]
fn end_counts() {
    let asked = |sources, targets| calc_path_multiple_sources_and_targets(&case_l(), vec![(0, 0); sources], vec![(2, 0); targets]);
    assert!(asked(16, 16).unwrap().is_some());
    for (sources, targets) in [(0, 1), (1, 0), (17, 1), (1, 17)] {
        assert_eq!(number(asked(sources, targets)), Some(21));
    }
}

#[test]
fn stored_tables_come_back_and_damaged_ones_do_not() {
    let stored = case_l().tables().clone();
    assert_eq!(FastGraph::from_tables(3, stored.clone()), Ok(case_l()));
    let damages: [fn(&mut Tables); 6] = [
        |t| t.ranks[0] = 0,
        |t| t.fwd.weights[1] = 6,
        |t| t.fwd.starts[1] = 7,
        |t| t.bwd.neighbours.clear(),
        |t| t.fwd.ins[1] = u32::MAX,
        // a second entry of node 0 to node 2, a link of its own
        |t| {
            let fwd = &mut t.fwd;
            for (column, number) in [
                (&mut fwd.bases, 0),
                (&mut fwd.neighbours, 2),
                (&mut fwd.ins, u32::MAX),
                (&mut fwd.outs, u32::MAX),
            ] {
                column.push(number);
            }
            fwd.weights.push(9);
            fwd.starts[2..].fill(3);
        },
    ];
    for damage in damages {
        let mut tables = stored.clone();
        damage(&mut tables);
        assert_eq!(number(FastGraph::from_tables(3, tables)), Some(20));
    }
    assert_eq!(number(FastGraph::from_tables(4, stored.clone())), Some(20));
    assert_eq!(number(FastGraph::from_tables(usize::MAX, stored)), Some(20));
}

#[test]
fn longer_columns_are_cut_to_what_is_used() {
    let mut tables = case_l().tables().clone();
    tables.ranks.push(9);
    for table in [&mut tables.fwd, &mut tables.bwd] {
        table.starts.push(9);
        for column in [&mut table.bases, &mut table.neighbours, &mut table.ins, &mut table.outs] {
            column.push(9);
        }
        table.weights.push(9);
    }
    assert_eq!(FastGraph::from_tables(3, tables), Ok(case_l()));
}

#[test]
fn a_walk_longer_than_the_node_count() {
    assert_eq!(number(calc_path(&round_trip(), 2, 3)), Some(25));
}
