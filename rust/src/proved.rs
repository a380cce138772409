//! The proved functions, with the parameters of crates/ratmanoep/src/lib.rt, each behind a safe one of the same name.

#![allow(clippy::too_many_arguments)]

/// Declares a function of the library, behind a safe one of the same name and parameters. To C a slice is a pointer and a length, and a
/// lent number is a pointer.
macro_rules! proved {
    (fn $name:ident($($parameters:tt)*) -> $result:ty) => {
        proved!(@ [fn $name($($parameters)*) -> $result] [] [] $($parameters)*);
    };
    // The parameters from the left: as C has them, and as they are passed.
    (@ $function:tt [$($c:tt)*] [$($passed:tt)*] $slice:ident: &[$number:ty], $($rest:tt)*) => {
        proved!(@ $function [$($c)* $slice: *const $number, _: usize,] [$($passed)* $slice.as_ptr(), $slice.len(),] $($rest)*);
    };
    (@ $function:tt [$($c:tt)*] [$($passed:tt)*] $slice:ident: &mut [$number:ty], $($rest:tt)*) => {
        proved!(@ $function [$($c)* $slice: *mut $number, _: usize,] [$($passed)* $slice.as_mut_ptr(), $slice.len(),] $($rest)*);
    };
    (@ $function:tt [$($c:tt)*] [$($passed:tt)*] $name:ident: &mut $number:ty, $($rest:tt)*) => {
        proved!(@ $function [$($c)* $name: *mut $number,] [$($passed)* $name,] $($rest)*);
    };
    (@ $function:tt [$($c:tt)*] [$($passed:tt)*] $name:ident: $number:ty, $($rest:tt)*) => {
        proved!(@ $function [$($c)* $name: $number,] [$($passed)* $name,] $($rest)*);
    };
    (@ [fn $name:ident($($parameters:tt)*) -> $result:ty] [$($c:tt)*] [$($passed:tt)*]) => {
        pub(crate) fn $name($($parameters)*) -> $result {
            extern "C" {
                fn $name($($c)*) -> $result;
            }
            // SAFETY: every pointer is that of a Rust slice or reference and every length that slice's own, so what they lead to may be
            // read, is aligned, has below 2^63 bytes, and is written through a `&mut` alone, which overlaps nothing else. The function is
            // proved to touch nothing beyond, for any numbers. tools/declarations compares the parameters with the proved source.
            unsafe { $name($($passed)*) }
        }
    };
}

proved!(fn ratmanoep_build_with_order(
    n: usize,
    tails: &[u32],
    heads: &[u32],
    link_weights: &[u32],
    order: &[u32],
    limit: u32,
    pool: u64,
    ranks: &mut [u32],
    fwd_starts: &mut [u32],
    fwd_bases: &mut [u32],
    fwd_neighbours: &mut [u32],
    fwd_weights: &mut [u64],
    fwd_ins: &mut [u32],
    fwd_outs: &mut [u32],
    bwd_starts: &mut [u32],
    bwd_bases: &mut [u32],
    bwd_neighbours: &mut [u32],
    bwd_weights: &mut [u64],
    bwd_ins: &mut [u32],
    bwd_outs: &mut [u32],
    arcs: &mut [u32],
    weights: &mut [u64],
    nodes: &mut [u32],
    labels: &mut [u64],
    heap: &mut [u64],
) -> u32);

proved!(fn ratmanoep_check_tables(
    n: usize,
    ranks: &[u32],
    fwd_starts: &[u32],
    fwd_bases: &[u32],
    fwd_neighbours: &[u32],
    fwd_weights: &[u64],
    fwd_ins: &[u32],
    fwd_outs: &[u32],
    bwd_starts: &[u32],
    bwd_bases: &[u32],
    bwd_neighbours: &[u32],
    bwd_weights: &[u64],
    bwd_ins: &[u32],
    bwd_outs: &[u32],
) -> u32);

proved!(fn ratmanoep_calc_path(
    n: usize,
    ranks: &[u32],
    fwd_starts: &[u32],
    fwd_bases: &[u32],
    fwd_neighbours: &[u32],
    fwd_weights: &[u64],
    fwd_ins: &[u32],
    fwd_outs: &[u32],
    bwd_starts: &[u32],
    bwd_bases: &[u32],
    bwd_neighbours: &[u32],
    bwd_weights: &[u64],
    bwd_ins: &[u32],
    bwd_outs: &[u32],
    sources: &[u32],
    source_offsets: &[u64],
    targets: &[u32],
    target_offsets: &[u64],
    path: &mut [u32],
    number: &mut u32,
    weight: &mut u64,
    fwd_labels: &mut [u64],
    bwd_labels: &mut [u64],
    fwd_heap: &mut [u64],
    bwd_heap: &mut [u64],
) -> usize);

proved!(fn ratmanoep_calc_paths(
    n: usize,
    ranks: &[u32],
    fwd_starts: &[u32],
    fwd_bases: &[u32],
    fwd_neighbours: &[u32],
    fwd_weights: &[u64],
    fwd_ins: &[u32],
    fwd_outs: &[u32],
    bwd_starts: &[u32],
    bwd_bases: &[u32],
    bwd_neighbours: &[u32],
    bwd_weights: &[u64],
    bwd_ins: &[u32],
    bwd_outs: &[u32],
    sources: &[u32],
    targets: &[u32],
    numbers: &mut [u32],
    weights: &mut [u64],
    lengths: &mut [u32],
    paths: &mut [u32],
    fwd_labels: &mut [u64],
    bwd_labels: &mut [u64],
    fwd_heap: &mut [u64],
    bwd_heap: &mut [u64],
) -> u32);

proved!(fn ratmanoep_answer_records(input: &[u8], out: &mut [u8],) -> usize);
