//! What the proved code is handed and lent: its functions, and links, tables and scratch in columns of its widths.

use crate::answer::checked;
use crate::constants::{NodeId, MAX_ENDS};
use crate::guard::{Borrowed, Handed};
use crate::input_graph::{Edge, InputGraph};
use crate::tables::Tables;

/// Declares a function of the proved library by its symbol, behind a safe one of the same parameters. To C a slice is an address and a
/// length, and a lent number is an address.
macro_rules! proved {
    ($symbol:literal, fn $name:ident($($parameters:tt)*) -> $result:ty) => {
        proved!(@ [$symbol, fn $name($($parameters)*) -> $result] [] [] [] $($parameters)*);
    };
    // The parameters from the left: as C has them, what is made of them, and as they are passed.
    (@ $function:tt [$($c:tt)*] [$($made:tt)*] [$($passed:tt)*] $slice:ident: &[$number:ty], $($rest:tt)*) => {
        proved!(@ $function [$($c)* $slice: *const $number, _: usize,] [$($made)* let $slice = Handed::new($slice);]
            [$($passed)* $slice.at(), $slice.len(),] $($rest)*);
    };
    (@ $function:tt [$($c:tt)*] [$($made:tt)*] [$($passed:tt)*] $slice:ident: &mut [$number:ty], $($rest:tt)*) => {
        proved!(@ $function [$($c)* $slice: *mut $number, _: usize,] [$($made)* let mut $slice = Borrowed::new($slice);]
            [$($passed)* $slice.at(), $slice.len(),] $($rest)*);
    };
    (@ $function:tt [$($c:tt)*] [$($made:tt)*] [$($passed:tt)*] $name:ident: &mut $number:ty, $($rest:tt)*) => {
        proved!(@ $function [$($c)* $name: *mut $number,] [$($made)* let mut $name = Borrowed::new(std::slice::from_mut($name));]
            [$($passed)* $name.at(),] $($rest)*);
    };
    (@ $function:tt [$($c:tt)*] [$($made:tt)*] [$($passed:tt)*] $name:ident: $number:ty, $($rest:tt)*) => {
        proved!(@ $function [$($c)* $name: $number,] [$($made)*] [$($passed)* $name,] $($rest)*);
    };
    (@ [$symbol:literal, fn $name:ident($($parameters:tt)*) -> $result:ty] [$($c:tt)*] [$($made:tt)*] [$($passed:tt)*]) => {
        pub fn $name($($parameters)*) -> $result {
            #[link(name = "ratmanoep", kind = "static")]
            extern "C" {
                #[link_name = $symbol]
                fn proved($($c)*) -> $result;
            }
            $($made)*
            unsafe { proved($($passed)*) }
        }
    };
}

#[rustfmt::skip]
proved!("ratmanoep_build_with_order", fn build_with_order(
    n: usize, tails: &[u32], heads: &[u32], link_weights: &[u32], order: &[u32],
    limit: u32, pool: u64,
    ranks: &mut [u32],
    fwd_starts: &mut [u32], fwd_bases: &mut [u32], fwd_neighbours: &mut [u32],
    fwd_weights: &mut [u64], fwd_ins: &mut [u32], fwd_outs: &mut [u32],
    bwd_starts: &mut [u32], bwd_bases: &mut [u32], bwd_neighbours: &mut [u32],
    bwd_weights: &mut [u64], bwd_ins: &mut [u32], bwd_outs: &mut [u32],
    arcs: &mut [u32], weights: &mut [u64], nodes: &mut [u32], labels: &mut [u64], heap: &mut [u64],
) -> u32);

/// The table check by its symbol, and what makes it of a hierarchy.
macro_rules! proved_check {
    ($symbol:literal, $name:ident, $of:ident) => {
        #[rustfmt::skip]
        proved!($symbol, fn $name(
            n: usize, ranks: &[u32],
            fwd_starts: &[u32], fwd_bases: &[u32], fwd_neighbours: &[u32], fwd_weights: &[u64], fwd_ins: &[u32], fwd_outs: &[u32],
            bwd_starts: &[u32], bwd_bases: &[u32], bwd_neighbours: &[u32], bwd_weights: &[u64], bwd_ins: &[u32], bwd_outs: &[u32],
        ) -> u32);

        impl Hierarchy {
            /// The number of the table check.
            #[rustfmt::skip]
            pub fn $of(&self) -> u32 {
                let Hierarchy { nodes, ranks, fwd, bwd } = self;
                $name(
                    *nodes, ranks,
                    &fwd.starts, &fwd.bases, &fwd.neighbours, &fwd.weights, &fwd.ins, &fwd.outs,
                    &bwd.starts, &bwd.bases, &bwd.neighbours, &bwd.weights, &bwd.ins, &bwd.outs,
                )
            }
        }
    };
}

proved_check!("ratmanoep_check_tables", check_tables, check);
#[cfg(before)] // that of another archive, its symbols renamed
proved_check!("before_check_tables", check_tables_before, check_before);

#[rustfmt::skip]
proved!("ratmanoep_calc_path", fn calc_path(
    n: usize, ranks: &[u32],
    fwd_starts: &[u32], fwd_bases: &[u32], fwd_neighbours: &[u32], fwd_weights: &[u64], fwd_ins: &[u32], fwd_outs: &[u32],
    bwd_starts: &[u32], bwd_bases: &[u32], bwd_neighbours: &[u32], bwd_weights: &[u64], bwd_ins: &[u32], bwd_outs: &[u32],
    sources: &[u32], source_offsets: &[u64], targets: &[u32], target_offsets: &[u64],
    path: &mut [u32], number: &mut u32, weight: &mut u64,
    fwd_labels: &mut [u64], bwd_labels: &mut [u64], fwd_heap: &mut [u64], bwd_heap: &mut [u64],
) -> usize);

#[rustfmt::skip]
proved!("ratmanoep_calc_paths", fn calc_paths(
    n: usize, ranks: &[u32],
    fwd_starts: &[u32], fwd_bases: &[u32], fwd_neighbours: &[u32], fwd_weights: &[u64], fwd_ins: &[u32], fwd_outs: &[u32],
    bwd_starts: &[u32], bwd_bases: &[u32], bwd_neighbours: &[u32], bwd_weights: &[u64], bwd_ins: &[u32], bwd_outs: &[u32],
    sources: &[u32], targets: &[u32],
    numbers: &mut [u32], weights: &mut [u64], lengths: &mut [u32], paths: &mut [u32],
    fwd_labels: &mut [u64], bwd_labels: &mut [u64], fwd_heap: &mut [u64], bwd_heap: &mut [u64],
) -> u32);

proved!("ratmanoep_answer_records", fn answer_records(input: &[u8], out: &mut [u8],) -> usize);

/// Links.
#[derive(Clone, Debug)]
pub struct Columns {
    pub n: usize,
    pub tails: Vec<u32>,
    pub heads: Vec<u32>,
    pub weights: Vec<u32>,
}

impl Columns {
    pub fn of(graph: &InputGraph) -> Columns {
        let edges = graph.get_edges();
        Columns {
            n: graph.get_num_nodes(),
            tails: edges.iter().map(|e| e.from as u32).collect(),
            heads: edges.iter().map(|e| e.to as u32).collect(),
            weights: edges.iter().map(|e| e.weight as u32).collect(),
        }
    }

    pub fn edges(&self) -> Vec<Edge> {
        let edge = |i: usize| Edge { from: self.tails[i] as usize, to: self.heads[i] as usize, weight: self.weights[i] as u64 };
        (0..self.tails.len()).map(edge).collect()
    }

    /// The graph for the crate, or the refusal from 1 to 6.
    pub fn checked(&self) -> Result<InputGraph, u64> {
        checked(self.n, &ids(&self.tails), &ids(&self.heads), &wide(&self.weights))
    }
}

pub fn ids(column: &[u32]) -> Vec<NodeId> {
    column.iter().map(|&id| id as NodeId).collect()
}

pub fn wide(column: &[u32]) -> Vec<u64> {
    column.iter().map(|&number| number as u64).collect()
}

/// One side of a hierarchy.
pub struct Table {
    pub starts: Vec<u32>,
    pub bases: Vec<u32>,
    pub neighbours: Vec<u32>,
    pub weights: Vec<u64>,
    pub ins: Vec<u32>,
    pub outs: Vec<u32>,
}

impl Table {
    /// Places that all hold the same.
    pub fn filled(starts: usize, columns: &[usize; 5], filled: u32) -> Table {
        let ids = |length| vec![filled; length];
        Table {
            starts: ids(starts),
            bases: ids(columns[0]),
            neighbours: ids(columns[1]),
            weights: vec![filled as u64; columns[2]],
            ins: ids(columns[3]),
            outs: ids(columns[4]),
        }
    }

    pub fn of(starts: &[usize], columns: &[Vec<u64>; 5]) -> Table {
        let ids = |k: usize| columns[k].iter().map(|&id| id as u32).collect();
        Table {
            starts: starts.iter().map(|&start| start as u32).collect(),
            bases: ids(0),
            neighbours: ids(1),
            weights: columns[2].clone(),
            ins: ids(3),
            outs: ids(4),
        }
    }

    pub fn places(&self) -> [Vec<u64>; 6] {
        [wide(&self.starts), wide(&self.bases), wide(&self.neighbours), self.weights.clone(), wide(&self.ins), wide(&self.outs)]
    }
}

/// A hierarchy.
pub struct Hierarchy {
    pub nodes: usize,
    pub ranks: Vec<u32>,
    pub fwd: Table,
    pub bwd: Table,
}

/// The ends of one side.
pub type Side<'a> = (&'a [u32], &'a [u64]);

impl Hierarchy {
    pub fn of(tables: &Tables) -> Hierarchy {
        Hierarchy {
            nodes: tables.nodes,
            ranks: tables.ranks.iter().map(|&rank| rank as u32).collect(),
            fwd: Table::of(&tables.fwd_starts, &tables.fwd),
            bwd: Table::of(&tables.bwd_starts, &tables.bwd),
        }
    }

    /// Number, weight and length of the walk.
    #[rustfmt::skip]
    pub fn query(&self, sources: Side, targets: Side, path: &mut [u32], scratch: &mut QueryScratch) -> (u32, u64, usize) {
        let Hierarchy { nodes, ranks, fwd, bwd } = self;
        let [fwd_labels, bwd_labels, fwd_heap, bwd_heap] = scratch;
        let (mut number, mut weight) = (FILLED, FILLED as u64);
        let length = calc_path(
            *nodes, ranks,
            &fwd.starts, &fwd.bases, &fwd.neighbours, &fwd.weights, &fwd.ins, &fwd.outs,
            &bwd.starts, &bwd.bases, &bwd.neighbours, &bwd.weights, &bwd.ins, &bwd.outs,
            sources.0, sources.1, targets.0, targets.1,
            path, &mut number, &mut weight,
            fwd_labels, bwd_labels, fwd_heap, bwd_heap,
        );
        (number, weight, length)
    }

    /// The number of a call for many routes.
    #[rustfmt::skip]
    pub fn routes(&self, sources: &[u32], targets: &[u32], routes: &mut Routes, scratch: &mut QueryScratch) -> u32 {
        let Hierarchy { nodes, ranks, fwd, bwd } = self;
        let [fwd_labels, bwd_labels, fwd_heap, bwd_heap] = scratch;
        calc_paths(
            *nodes, ranks,
            &fwd.starts, &fwd.bases, &fwd.neighbours, &fwd.weights, &fwd.ins, &fwd.outs,
            &bwd.starts, &bwd.bases, &bwd.neighbours, &bwd.weights, &bwd.ins, &bwd.outs,
            sources, targets,
            &mut routes.numbers, &mut routes.weights, &mut routes.lengths, &mut routes.paths,
            fwd_labels, bwd_labels, fwd_heap, bwd_heap,
        )
    }
}

/// What many routes are written to: the walk of a pair lies in its own n places of the paths.
pub struct Routes {
    pub numbers: Vec<u32>,
    pub weights: Vec<u64>,
    pub lengths: Vec<u32>,
    pub paths: Vec<u32>,
}

impl Routes {
    pub fn filled([numbers, weights, lengths, paths]: [usize; 4]) -> Routes {
        let ids = |length| vec![FILLED; length];
        Routes { numbers: ids(numbers), weights: vec![FILLED as u64; weights], lengths: ids(lengths), paths: ids(paths) }
    }
}

/// What lent places hold before: no node has this number.
pub const FILLED: u32 = 77_777;

/// What a build works in; it holds rubbish before.
pub struct BuildScratch {
    pub arcs: Vec<u32>,
    pub weights: Vec<u64>,
    pub nodes: Vec<u32>,
    pub labels: Vec<u64>,
    pub heap: Vec<u64>,
}

impl BuildScratch {
    pub fn new([arcs, weights, nodes, labels, heap]: [usize; 5]) -> BuildScratch {
        BuildScratch {
            arcs: vec![9; arcs],
            weights: vec![9; weights],
            nodes: vec![9; nodes],
            labels: vec![9; labels],
            heap: vec![9; heap],
        }
    }
}

/// docs/SCRATCH.md: arcs, weights, nodes, labels, heap. A pool may be any number.
pub fn build_scratch(nodes: usize, pool: usize) -> [usize; 5] {
    let of = |factor: usize, count: usize| count.saturating_mul(factor);
    [of(6, pool), pool, of(4, nodes), of(2, nodes), of(2, pool.saturating_add(1))]
}

/// Labels and heaps, forward and backward.
pub type QueryScratch = [Vec<u64>; 4];

/// docs/SCRATCH.md.
pub fn query_scratch(nodes: usize, fwd_entries: usize, bwd_entries: usize) -> [usize; 4] {
    let heap = |entries: usize| 2 * (entries + MAX_ENDS);
    [4 * nodes, 4 * nodes, heap(fwd_entries), heap(bwd_entries)]
}

/// Whether a slice is below its formula.
pub fn below_formula(lent: &[usize], formula: &[usize]) -> bool {
    lent.iter().zip(formula).any(|(lent, formula)| lent < formula)
}
