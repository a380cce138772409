/*
 * ratmanoep.h - least-weight routes over a network of at most 1,024 nodes, by contraction hierarchies.
 *
 * C99, and C++. Link with crates/ratmanoep/out/libratmanoep.a (`rt lib` in crates/ratmanoep proves the code and writes it; x86-64 Linux).
 *
 * The library allocates nothing and keeps nothing between calls: all memory is lent by the caller, so calls on different memory may
 * run at the same time. Of the C library it uses memset alone. Any numbers may be handed in: every call ends, and bad input is met
 * with a numbered refusal (enum ratmanoep_number). What is lent to be written may hold anything beforehand.
 *
 * Stack, as measured with an older kit: 4 KB for a build and a table check; for a query some 230 bytes for each level of entries within entries, the most
 * 230 KB (a line of 1,024 nodes ranked from one end to the other); 130 KB for the record program.
 *
 * What is asked of a pointer is all that is asked of a caller, and nothing can test it:
 *
 *   - A slice is a pointer and a length, which counts numbers and not bytes. All of its places may be read, and written where the
 *     pointer is not to const.
 *   - It is aligned for its numbers, as every array of them is and what malloc gives.
 *   - What is written overlaps nothing else of the call: no other lent slice, and nothing that is only read. Slices that are only
 *     read may be the same or overlap.
 *   - A slice has below 2^63 bytes.
 *   - A slice of length 0 may have any pointer, NULL too: nothing is read or written through it. (examples/null_slices.c tries each.)
 *   - `number` and `weight` of ratmanoep_calc_path are single numbers and never NULL.
 *   - No other thread writes what is lent before the call returns, or reads what the call writes.
 *
 * A few lines are enough with the structures further below; examples/case_l.c is a whole program.
 */
#ifndef RATMANOEP_H
#define RATMANOEP_H

#include <stddef.h>
#include <stdint.h>

#ifdef __cplusplus
extern "C" {
#endif

/* A length has 64 bits on both sides of a call. */
typedef char ratmanoep_needs_64_bits[sizeof(size_t) == 8 ? 1 : -1];

/* ---- Numbers ------------------------------------------------------------------------------------------------------------------ */

#define RATMANOEP_MAX_NODES 1024u
#define RATMANOEP_MAX_LINKS 16384u
#define RATMANOEP_MAX_ENDS 16u                        /* sources of a query, and targets */
#define RATMANOEP_MAX_LINK_WEIGHT UINT32_C(4294967295) /* a link's weight is 1 to this */
#define RATMANOEP_MAX_WEIGHT (UINT64_C(1) << 40)      /* of pair sums, entries of a table, and offsets */
#define RATMANOEP_WEIGHT_MAX UINT64_MAX               /* the no-weight mark: no route; an end that does not count */
#define RATMANOEP_INVALID UINT32_MAX                  /* the invalid mark, of every other column */
#define RATMANOEP_MAX_INPUT 16384u                    /* bytes that the record program reads; one more is `too long` */
#define RATMANOEP_MAX_OUTPUT 278545u                  /* bytes that it writes at most: this room is always enough */

/* What a call answers: 0, or the lowest number of those that are met. */
enum ratmanoep_number {
    RATMANOEP_DONE = 0,                 /* built; tables in order; a route, or "none" */
    RATMANOEP_TOO_MANY_NODES = 1,
    RATMANOEP_LINK_COLUMNS = 2,
    RATMANOEP_LINK_NODE = 3,
    RATMANOEP_LOOP = 4,
    RATMANOEP_ZERO_WEIGHT = 5,
    RATMANOEP_NOT_ASCENDING = 6,
    RATMANOEP_ORDER_LENGTH = 7,
    RATMANOEP_ORDER_NODE = 8,
    RATMANOEP_BUILD_ROOM = 9,
    RATMANOEP_POOL_FULL = 10,
    RATMANOEP_TABLE_FULL = 11,
    RATMANOEP_SUM_TOO_LARGE = 12,
    RATMANOEP_BAD_TABLES = 20,
    RATMANOEP_ENDS = 21,
    RATMANOEP_END_NODE = 22,
    RATMANOEP_OFFSET = 23,
    RATMANOEP_QUERY_ROOM = 24,
    RATMANOEP_WALK_TOO_LONG = 25
};

/* Exactly when a call is refused with this number, as a sentence that lives as long as the program. */
static inline const char *ratmanoep_sentence(uint32_t number)
{
    switch (number) {
    case RATMANOEP_DONE: return "not refused";
    case RATMANOEP_TOO_MANY_NODES: return "more than 1,024 nodes";
    case RATMANOEP_LINK_COLUMNS: return "link columns differ in length or exceed 16,384";
    case RATMANOEP_LINK_NODE: return "a link names a node not below the count";
    case RATMANOEP_LOOP: return "a loop";
    case RATMANOEP_ZERO_WEIGHT: return "a link weight of 0";
    case RATMANOEP_NOT_ASCENDING: return "links not strictly ascending";
    case RATMANOEP_ORDER_LENGTH: return "order length is not the node count";
    case RATMANOEP_ORDER_NODE: return "order names a node not below the count, or one twice";
    case RATMANOEP_BUILD_ROOM:
        return "ranks below n places, starts below n + 1, a table's columns of unequal length, or scratch below its stated formula";
    case RATMANOEP_POOL_FULL: return "live arcs would exceed the lent pool";
    case RATMANOEP_TABLE_FULL: return "an entry would exceed its table";
    case RATMANOEP_SUM_TOO_LARGE: return "a pair sum exceeds 2^40, with no witness and no arc that weighs at most the sum";
    case RATMANOEP_BAD_TABLES: return "hierarchy breaks a table rule";
    case RATMANOEP_ENDS: return "sources or targets: none, more than 16, or columns differ";
    case RATMANOEP_END_NODE: return "a source or target not below the node count";
    case RATMANOEP_OFFSET: return "an offset above 2^40 that isn't the mark";
    case RATMANOEP_QUERY_ROOM: return "path buffer below n places, or query scratch below its formula";
    case RATMANOEP_WALK_TOO_LONG: return "the unpacked walk is longer than the path buffer";
    default: return "no number of this library";
    }
}

/* ---- How much to lend ---------------------------------------------------------------------------------------------------------- */

/* Formulas saturate: what a size_t cannot hold is SIZE_MAX, which no allocator gives. */
static inline size_t ratmanoep_times(size_t factor, uint64_t count)
{
    return count > SIZE_MAX / factor ? SIZE_MAX : factor * (size_t)count;
}

static inline uint64_t ratmanoep_plus(uint64_t a, uint64_t b)
{
    return a > UINT64_MAX - b ? UINT64_MAX : a + b;
}

/* The hierarchy: ranks have n places, starts n + 1. */
static inline size_t ratmanoep_ranks_places(size_t n) { return n; }
static inline size_t ratmanoep_starts_places(size_t n) { return ratmanoep_times(1, ratmanoep_plus(n, 1)); }

/* A pool of n(n - 1) arcs never meets 10, and tables of n(n - 1)/2 entries never meet 11. Most networks need far less; both are
 * choices, and a build that meets 10 or 11 can be asked again with more. */
static inline uint64_t ratmanoep_pool_enough(size_t n) { return n == 0 ? 0 : ratmanoep_times(n, n - 1); }
static inline size_t ratmanoep_entries_enough(size_t n) { return (size_t)(ratmanoep_pool_enough(n) / 2); }

/* Scratch of a build, for n nodes and a pool of so many arcs. */
static inline size_t ratmanoep_arcs_places(uint64_t pool) { return ratmanoep_times(6, pool); }         /* 6 pool, u32 */
static inline size_t ratmanoep_weights_places(uint64_t pool) { return ratmanoep_times(1, pool); }      /* pool, u64 */
static inline size_t ratmanoep_nodes_places(size_t n) { return ratmanoep_times(4, n); }                /* 4 n, u32 */
static inline size_t ratmanoep_build_labels_places(size_t n) { return ratmanoep_times(2, n); }         /* 2 n, u64 */
static inline size_t ratmanoep_build_heap_places(uint64_t pool)                                        /* 2 (pool + 1), u64 */
{
    return ratmanoep_times(2, ratmanoep_plus(pool, 1));
}

/* Of a query: the path has n places; the labels of each side 4 n; the heap of each side 2 (entries + 16), with the used entries of
 * that side's table, which its start at place n counts. */
static inline size_t ratmanoep_path_places(size_t n) { return n; }                                     /* n, u32 */
static inline size_t ratmanoep_query_labels_places(size_t n) { return ratmanoep_times(4, n); }         /* 4 n, u64 */
static inline size_t ratmanoep_query_heap_places(uint64_t entries)                                     /* 2 (entries + 16), u64 */
{
    return ratmanoep_times(2, ratmanoep_plus(entries, RATMANOEP_MAX_ENDS));
}

/* Of many routes at once: the paths have n places for each pair. */
static inline size_t ratmanoep_paths_places(size_t n, size_t pairs)                                    /* n pairs, u32 */
{
    return n == 0 ? 0 : ratmanoep_times(n, pairs);
}

/* ---- The calls ----------------------------------------------------------------------------------------------------------------- */

/*
 * Builds the hierarchy of a network in a given order, of which the first node has rank 0.
 *
 *   n                            nodes, named 0 to n - 1
 *   tails, heads, link_weights   the links: from, to and weight of each, in three columns of one length. They are directed, ascend
 *                                strictly by (from, to), and none is a loop; a weight is 1 to 4,294,967,295
 *   order                        each node once
 *   limit                        so many nodes a witness search may settle: any number, 0 too. It decides how many entries there are,
 *                                and never a route's weight
 *   pool                         so many arcs the preparation may hold at a time
 *   ranks, fwd_.., bwd_..        where the hierarchy goes: the rank of each node; of the forward and the backward table where each
 *                                rank's entries start, and of each entry its base, neighbour, weight, and the backward and the forward
 *                                entry that it stands for (the invalid mark in both where it is a link)
 *   arcs, weights, nodes,        scratch, each at least as long as its formula above: ratmanoep_arcs_places, ratmanoep_weights_places,
 *   labels, heap                 ratmanoep_nodes_places, ratmanoep_build_labels_places, ratmanoep_build_heap_places
 *
 * Answers 0 or a refusal, of those that are met the lowest; 10 to 12 at the step that meets them:
 *
 *   1   more than 1,024 nodes
 *   2   tails, heads and link_weights differ in length, or have more than 16,384 places
 *   3   a link names a node not below n
 *   4   a link from a node to itself
 *   5   a link weight of 0
 *   6   links that do not strictly ascend by (from, to): out of order, or one twice
 *   7   the order's length is not n
 *   8   the order names a node not below n, or one twice
 *   9   ranks below n places, starts below n + 1, a table's five other columns of unequal length, or scratch below its formula
 *   10  more arcs than the pool has: lend a larger one (ratmanoep_pool_enough)
 *   11  more entries than a table has: lend a longer one (ratmanoep_entries_enough)
 *   12  the weights of two arcs through a node make more than 2^40, no way beside the node that weighs at most as much was found
 *       within the limit, and no arc between the same ends weighs at most as much. A larger limit may find one
 *
 * What the lent places then hold:
 *
 *   0         the first n ranks and n + 1 starts; fwd_starts[n] and bwd_starts[n] say how many entries of each table are used.
 *             Places beyond these are left alone
 *   1 to 9    nothing has changed
 *   10 to 12  every place of ranks, starts and both tables has the mark of its column: RATMANOEP_WEIGHT_MAX in fwd_weights and
 *             bwd_weights, RATMANOEP_INVALID in the others
 *   scratch   anything
 */
uint32_t ratmanoep_build_with_order(
    size_t n,
    const uint32_t *tails, size_t tails_length,
    const uint32_t *heads, size_t heads_length,
    const uint32_t *link_weights, size_t link_weights_length,
    const uint32_t *order, size_t order_length,
    uint32_t limit,
    uint64_t pool,
    uint32_t *ranks, size_t ranks_length,
    uint32_t *fwd_starts, size_t fwd_starts_length,
    uint32_t *fwd_bases, size_t fwd_bases_length,
    uint32_t *fwd_neighbours, size_t fwd_neighbours_length,
    uint64_t *fwd_weights, size_t fwd_weights_length,
    uint32_t *fwd_ins, size_t fwd_ins_length,
    uint32_t *fwd_outs, size_t fwd_outs_length,
    uint32_t *bwd_starts, size_t bwd_starts_length,
    uint32_t *bwd_bases, size_t bwd_bases_length,
    uint32_t *bwd_neighbours, size_t bwd_neighbours_length,
    uint64_t *bwd_weights, size_t bwd_weights_length,
    uint32_t *bwd_ins, size_t bwd_ins_length,
    uint32_t *bwd_outs, size_t bwd_outs_length,
    uint32_t *arcs, size_t arcs_length,
    uint64_t *weights, size_t weights_length,
    uint32_t *nodes, size_t nodes_length,
    uint64_t *labels, size_t labels_length,
    uint64_t *heap, size_t heap_length);

/*
 * Whether a hierarchy of n nodes keeps the table rules, as what a build made does. For tables that were stored and read back:
 * ratmanoep_calc_path makes the same test at each call, so that no route needs this one.
 *
 * Answers 0, or 20: more than 1,024 nodes; fewer than n ranks or n + 1 starts; a table's columns of unequal length; ranks that are no
 * permutation; starts that do not begin at 0, fall, or end beyond the table; a used entry whose base has another rank than its range,
 * whose neighbour has no higher one, whose weight is not 1 to 2^40, or whose two numbers do not fit; two used entries of one node to one
 * neighbour in one table. Nothing is written.
 */
uint32_t ratmanoep_check_tables(
    size_t n,
    const uint32_t *ranks, size_t ranks_length,
    const uint32_t *fwd_starts, size_t fwd_starts_length,
    const uint32_t *fwd_bases, size_t fwd_bases_length,
    const uint32_t *fwd_neighbours, size_t fwd_neighbours_length,
    const uint64_t *fwd_weights, size_t fwd_weights_length,
    const uint32_t *fwd_ins, size_t fwd_ins_length,
    const uint32_t *fwd_outs, size_t fwd_outs_length,
    const uint32_t *bwd_starts, size_t bwd_starts_length,
    const uint32_t *bwd_bases, size_t bwd_bases_length,
    const uint32_t *bwd_neighbours, size_t bwd_neighbours_length,
    const uint64_t *bwd_weights, size_t bwd_weights_length,
    const uint32_t *bwd_ins, size_t bwd_ins_length,
    const uint32_t *bwd_outs, size_t bwd_outs_length);

/*
 * The least-weight route from any of the sources to any of the targets.
 *
 *   n, ranks, fwd_.., bwd_..   the hierarchy, as a build left it; columns may be longer than what is used
 *   sources, source_offsets    1 to 16 nodes, and what each adds to the weight: 0 to 2^40, or RATMANOEP_WEIGHT_MAX for a source that
 *   targets, target_offsets    does not count. Likewise the targets. A node may stand twice, or on both sides
 *   path                       where the walk goes, at least n places
 *   number, weight             where the answer goes
 *   fwd_labels, bwd_labels,    scratch, each at least as long as its formula above: ratmanoep_query_labels_places(n),
 *   fwd_heap, bwd_heap         ratmanoep_query_heap_places(fwd_starts[n]), ratmanoep_query_heap_places(bwd_starts[n])
 *
 * Returns how many places of the path, from its front, are the walk: its nodes from a source to a target. *number is then
 *
 *   0   a route: *weight is its weight, offsets included. Places of the path beyond the walk are left alone.
 *       Or "none": *weight is RATMANOEP_WEIGHT_MAX, the path is left alone, and 0 is returned
 *   20  the hierarchy breaks a table rule (ratmanoep_check_tables)
 *   21  no source or no target, more than 16, or fewer or more offsets than nodes
 *   22  a source or a target not below n
 *   23  an offset above 2^40 that is not the mark
 *   24  a path below n places, or scratch below its formula
 *   25  a walk longer than the path: never on what a build made, where n places are enough
 *
 * of the refusals the lowest. After one the path is left alone, *weight is RATMANOEP_WEIGHT_MAX, and 0 is returned. Scratch may hold
 * anything afterwards.
 */
size_t ratmanoep_calc_path(
    size_t n,
    const uint32_t *ranks, size_t ranks_length,
    const uint32_t *fwd_starts, size_t fwd_starts_length,
    const uint32_t *fwd_bases, size_t fwd_bases_length,
    const uint32_t *fwd_neighbours, size_t fwd_neighbours_length,
    const uint64_t *fwd_weights, size_t fwd_weights_length,
    const uint32_t *fwd_ins, size_t fwd_ins_length,
    const uint32_t *fwd_outs, size_t fwd_outs_length,
    const uint32_t *bwd_starts, size_t bwd_starts_length,
    const uint32_t *bwd_bases, size_t bwd_bases_length,
    const uint32_t *bwd_neighbours, size_t bwd_neighbours_length,
    const uint64_t *bwd_weights, size_t bwd_weights_length,
    const uint32_t *bwd_ins, size_t bwd_ins_length,
    const uint32_t *bwd_outs, size_t bwd_outs_length,
    const uint32_t *sources, size_t sources_length,
    const uint64_t *source_offsets, size_t source_offsets_length,
    const uint32_t *targets, size_t targets_length,
    const uint64_t *target_offsets, size_t target_offsets_length,
    uint32_t *path, size_t path_length,
    uint32_t *number,
    uint64_t *weight,
    uint64_t *fwd_labels, size_t fwd_labels_length,
    uint64_t *bwd_labels, size_t bwd_labels_length,
    uint64_t *fwd_heap, size_t fwd_heap_length,
    uint64_t *bwd_heap, size_t bwd_heap_length);

/*
 * Many routes after one check of the tables and one clearing of the labels: from sources[k] to targets[k], each alone and with offset 0.
 *
 *   n, ranks, fwd_.., bwd_..   the hierarchy, as of ratmanoep_calc_path
 *   sources, targets           the pairs, any number of them, none included
 *   numbers, weights, lengths  where each pair's answer goes: a place a pair
 *   paths                      where the walks go: ratmanoep_paths_places(n, pairs), n for each pair
 *   fwd_labels .. bwd_heap     scratch, as of ratmanoep_calc_path
 *
 * Answers 0, or a number for the whole call, of those that are met the lowest; then no lent place has changed:
 *
 *   20  the hierarchy breaks a table rule
 *   21  sources and targets differ in length
 *   24  numbers, weights or lengths below a place per pair, paths below n places per pair, or scratch below its formula
 *
 * After 0 numbers[k] is 0, 22 (a node not below n) or 25 (a walk longer than n: never on what a build made). The walk of a route is the
 * first lengths[k] places of `paths` from place k n on, and weights[k] is its weight. For "none" and refusals lengths[k] is 0 and weights[k]
 * RATMANOEP_WEIGHT_MAX. Places beyond a walk, and beyond a place per pair, are left alone. Scratch may hold anything afterwards.
 */
uint32_t ratmanoep_calc_paths(
    size_t n,
    const uint32_t *ranks, size_t ranks_length,
    const uint32_t *fwd_starts, size_t fwd_starts_length,
    const uint32_t *fwd_bases, size_t fwd_bases_length,
    const uint32_t *fwd_neighbours, size_t fwd_neighbours_length,
    const uint64_t *fwd_weights, size_t fwd_weights_length,
    const uint32_t *fwd_ins, size_t fwd_ins_length,
    const uint32_t *fwd_outs, size_t fwd_outs_length,
    const uint32_t *bwd_starts, size_t bwd_starts_length,
    const uint32_t *bwd_bases, size_t bwd_bases_length,
    const uint32_t *bwd_neighbours, size_t bwd_neighbours_length,
    const uint64_t *bwd_weights, size_t bwd_weights_length,
    const uint32_t *bwd_ins, size_t bwd_ins_length,
    const uint32_t *bwd_outs, size_t bwd_outs_length,
    const uint32_t *sources, size_t sources_length,
    const uint32_t *targets, size_t targets_length,
    uint32_t *numbers, size_t numbers_length,
    uint64_t *weights, size_t weights_length,
    uint32_t *lengths, size_t lengths_length,
    uint32_t *paths, size_t paths_length,
    uint64_t *fwd_labels, size_t fwd_labels_length,
    uint64_t *bwd_labels, size_t bwd_labels_length,
    uint64_t *fwd_heap, size_t fwd_heap_length,
    uint64_t *bwd_heap, size_t bwd_heap_length);

/*
 * The gateway's record program: commissioning records in, lines of text out.
 *
 * Writes the lines over the front of `out`, as far as there is room, and returns their whole length, also where that is more than
 * `out` has. RATMANOEP_MAX_OUTPUT bytes are always enough. Places beyond the lines are left alone. Any bytes may be handed in: more
 * than RATMANOEP_MAX_INPUT are answered by the line `too long`, a wrong record by `bad record` and its offset, and a refusal by
 * `refused` and its number.
 */
size_t ratmanoep_answer_records(const uint8_t *input, size_t input_length, uint8_t *out, size_t out_length);

/* ---- The same with structures --------------------------------------------------------------------------------------------------- */

/* Links, and the order in which their nodes are ranked. */
typedef struct {
    size_t nodes;
    size_t links;
    const uint32_t *tails, *heads, *weights; /* `links` places each */
    const uint32_t *order;                   /* `nodes` places */
} ratmanoep_graph;

/* One side of a hierarchy: `nodes` + 1 starts, and five columns of `entries` places. */
typedef struct {
    size_t entries;
    uint64_t *weights;
    uint32_t *starts, *bases, *neighbours, *ins, *outs;
} ratmanoep_table;

typedef struct {
    size_t nodes;
    uint32_t *ranks; /* `nodes` places */
    ratmanoep_table fwd, bwd;
} ratmanoep_hierarchy;

/* What a build of so many nodes works in: each slice is as long as its formula. */
typedef struct {
    size_t for_nodes;
    uint64_t pool;
    uint64_t *weights, *labels, *heap;
    uint32_t *arcs, *nodes;
} ratmanoep_build_scratch;

/* What queries of a hierarchy work in, and where their walks go: each slice is as long as its formula. */
typedef struct {
    size_t for_nodes, fwd_entries, bwd_entries;
    uint64_t *fwd_labels, *bwd_labels, *fwd_heap, *bwd_heap;
    uint32_t *path;
} ratmanoep_query_scratch;

/* Sources, or targets. */
typedef struct {
    size_t count;
    const uint32_t *nodes;
    const uint64_t *offsets;
} ratmanoep_ends;

/* `length` nodes of the walk stand in the front of the scratch's path, until the next query with it. */
typedef struct {
    uint32_t number;
    uint64_t weight;
    size_t length;
} ratmanoep_answer;

/* Pairs of ends for many routes at once. */
typedef struct {
    size_t count;
    const uint32_t *sources, *targets;
} ratmanoep_pairs;

/* The answers of so many pairs: numbers[k], weights[k], and lengths[k] nodes of the walk from ratmanoep_walk(a, k) on. */
typedef struct {
    size_t for_nodes, pairs;
    uint64_t *weights;
    uint32_t *numbers, *lengths, *paths;
} ratmanoep_answers;

/* Used entries of a table that was built. */
static inline size_t ratmanoep_used(const ratmanoep_hierarchy *h, const ratmanoep_table *t) { return t->starts[h->nodes]; }

/*
 * Memory for each structure is one block of ratmanoep_.._bytes, aligned for a uint64_t as malloc's is, of which ratmanoep_.._in makes
 * the slices, side by side. SIZE_MAX bytes are more than there is. The numbers of 8 bytes come first, so that all are aligned.
 */
static inline size_t ratmanoep_bytes(uint64_t wide, uint64_t narrow)
{
    return ratmanoep_times(1, ratmanoep_plus(ratmanoep_times(8, wide), ratmanoep_times(4, narrow)));
}

static inline uint64_t *ratmanoep_take_wide(unsigned char **memory, size_t places)
{
    uint64_t *taken = (uint64_t *)(void *)*memory;
    *memory += 8 * places;
    return taken;
}

static inline uint32_t *ratmanoep_take_narrow(unsigned char **memory, size_t places)
{
    uint32_t *taken = (uint32_t *)(void *)*memory;
    *memory += 4 * places;
    return taken;
}

/* A hierarchy of so many nodes, with room for so many entries in each table. */
static inline size_t ratmanoep_hierarchy_bytes(size_t nodes, size_t fwd_entries, size_t bwd_entries)
{
    uint64_t entries = ratmanoep_plus(fwd_entries, bwd_entries);
    uint64_t starts = ratmanoep_times(2, ratmanoep_starts_places(nodes));
    return ratmanoep_bytes(entries, ratmanoep_plus(ratmanoep_plus(nodes, starts), ratmanoep_times(4, entries)));
}

static inline void ratmanoep_take_table(ratmanoep_table *t, unsigned char **memory, size_t nodes)
{
    t->starts = ratmanoep_take_narrow(memory, ratmanoep_starts_places(nodes));
    t->bases = ratmanoep_take_narrow(memory, t->entries);
    t->neighbours = ratmanoep_take_narrow(memory, t->entries);
    t->ins = ratmanoep_take_narrow(memory, t->entries);
    t->outs = ratmanoep_take_narrow(memory, t->entries);
}

static inline ratmanoep_hierarchy ratmanoep_hierarchy_in(void *memory, size_t nodes, size_t fwd_entries, size_t bwd_entries)
{
    unsigned char *next = (unsigned char *)memory;
    ratmanoep_hierarchy h;
    h.nodes = nodes;
    h.fwd.entries = fwd_entries;
    h.bwd.entries = bwd_entries;
    h.fwd.weights = ratmanoep_take_wide(&next, fwd_entries);
    h.bwd.weights = ratmanoep_take_wide(&next, bwd_entries);
    h.ranks = ratmanoep_take_narrow(&next, ratmanoep_ranks_places(nodes));
    ratmanoep_take_table(&h.fwd, &next, nodes);
    ratmanoep_take_table(&h.bwd, &next, nodes);
    return h;
}

/* Scratch of a build. It may be freed after the build. */
static inline size_t ratmanoep_build_scratch_bytes(size_t nodes, uint64_t pool)
{
    uint64_t wide = ratmanoep_plus(
        ratmanoep_weights_places(pool),
        ratmanoep_plus(ratmanoep_build_labels_places(nodes), ratmanoep_build_heap_places(pool)));
    return ratmanoep_bytes(wide, ratmanoep_plus(ratmanoep_arcs_places(pool), ratmanoep_nodes_places(nodes)));
}

static inline ratmanoep_build_scratch ratmanoep_build_scratch_in(void *memory, size_t nodes, uint64_t pool)
{
    unsigned char *next = (unsigned char *)memory;
    ratmanoep_build_scratch s;
    s.for_nodes = nodes;
    s.pool = pool;
    s.weights = ratmanoep_take_wide(&next, ratmanoep_weights_places(pool));
    s.labels = ratmanoep_take_wide(&next, ratmanoep_build_labels_places(nodes));
    s.heap = ratmanoep_take_wide(&next, ratmanoep_build_heap_places(pool));
    s.arcs = ratmanoep_take_narrow(&next, ratmanoep_arcs_places(pool));
    s.nodes = ratmanoep_take_narrow(&next, ratmanoep_nodes_places(nodes));
    return s;
}

/* Scratch of queries: for the used entries of each table, or any more. */
static inline size_t ratmanoep_query_scratch_bytes(size_t nodes, size_t fwd_entries, size_t bwd_entries)
{
    uint64_t heaps = ratmanoep_plus(ratmanoep_query_heap_places(fwd_entries), ratmanoep_query_heap_places(bwd_entries));
    uint64_t labels = ratmanoep_times(2, ratmanoep_query_labels_places(nodes));
    return ratmanoep_bytes(ratmanoep_plus(labels, heaps), ratmanoep_path_places(nodes));
}

static inline ratmanoep_query_scratch ratmanoep_query_scratch_in(void *memory, size_t nodes, size_t fwd_entries, size_t bwd_entries)
{
    unsigned char *next = (unsigned char *)memory;
    ratmanoep_query_scratch s;
    s.for_nodes = nodes;
    s.fwd_entries = fwd_entries;
    s.bwd_entries = bwd_entries;
    s.fwd_labels = ratmanoep_take_wide(&next, ratmanoep_query_labels_places(nodes));
    s.bwd_labels = ratmanoep_take_wide(&next, ratmanoep_query_labels_places(nodes));
    s.fwd_heap = ratmanoep_take_wide(&next, ratmanoep_query_heap_places(fwd_entries));
    s.bwd_heap = ratmanoep_take_wide(&next, ratmanoep_query_heap_places(bwd_entries));
    s.path = ratmanoep_take_narrow(&next, ratmanoep_path_places(nodes));
    return s;
}

/* Answers of so many pairs. */
static inline size_t ratmanoep_answers_bytes(size_t nodes, size_t pairs)
{
    return ratmanoep_bytes(pairs, ratmanoep_plus(ratmanoep_times(2, pairs), ratmanoep_paths_places(nodes, pairs)));
}

static inline ratmanoep_answers ratmanoep_answers_in(void *memory, size_t nodes, size_t pairs)
{
    unsigned char *next = (unsigned char *)memory;
    ratmanoep_answers a;
    a.for_nodes = nodes;
    a.pairs = pairs;
    a.weights = ratmanoep_take_wide(&next, pairs);
    a.numbers = ratmanoep_take_narrow(&next, pairs);
    a.lengths = ratmanoep_take_narrow(&next, pairs);
    a.paths = ratmanoep_take_narrow(&next, ratmanoep_paths_places(nodes, pairs));
    return a;
}

/* ratmanoep_build_with_order. Scratch for fewer nodes than the graph has is refused with 9. */
static inline uint32_t ratmanoep_build(
    const ratmanoep_graph *g, uint32_t limit, const ratmanoep_hierarchy *h, const ratmanoep_build_scratch *s)
{
    return ratmanoep_build_with_order(
        g->nodes,
        g->tails, g->links,
        g->heads, g->links,
        g->weights, g->links,
        g->order, g->nodes,
        limit,
        s->pool,
        h->ranks, ratmanoep_ranks_places(h->nodes),
        h->fwd.starts, ratmanoep_starts_places(h->nodes),
        h->fwd.bases, h->fwd.entries,
        h->fwd.neighbours, h->fwd.entries,
        h->fwd.weights, h->fwd.entries,
        h->fwd.ins, h->fwd.entries,
        h->fwd.outs, h->fwd.entries,
        h->bwd.starts, ratmanoep_starts_places(h->nodes),
        h->bwd.bases, h->bwd.entries,
        h->bwd.neighbours, h->bwd.entries,
        h->bwd.weights, h->bwd.entries,
        h->bwd.ins, h->bwd.entries,
        h->bwd.outs, h->bwd.entries,
        s->arcs, ratmanoep_arcs_places(s->pool),
        s->weights, ratmanoep_weights_places(s->pool),
        s->nodes, ratmanoep_nodes_places(s->for_nodes),
        s->labels, ratmanoep_build_labels_places(s->for_nodes),
        s->heap, ratmanoep_build_heap_places(s->pool));
}

/* The columns of a hierarchy, as every call but the build takes them. */
#define RATMANOEP_COLUMNS(h)                                 \
    (h)->nodes,                                              \
    (h)->ranks, ratmanoep_ranks_places((h)->nodes),          \
    (h)->fwd.starts, ratmanoep_starts_places((h)->nodes),    \
    (h)->fwd.bases, (h)->fwd.entries,                        \
    (h)->fwd.neighbours, (h)->fwd.entries,                   \
    (h)->fwd.weights, (h)->fwd.entries,                      \
    (h)->fwd.ins, (h)->fwd.entries,                          \
    (h)->fwd.outs, (h)->fwd.entries,                         \
    (h)->bwd.starts, ratmanoep_starts_places((h)->nodes),    \
    (h)->bwd.bases, (h)->bwd.entries,                        \
    (h)->bwd.neighbours, (h)->bwd.entries,                   \
    (h)->bwd.weights, (h)->bwd.entries,                      \
    (h)->bwd.ins, (h)->bwd.entries,                          \
    (h)->bwd.outs, (h)->bwd.entries

/* ratmanoep_check_tables. */
static inline uint32_t ratmanoep_check(const ratmanoep_hierarchy *h)
{
    return ratmanoep_check_tables(RATMANOEP_COLUMNS(h));
}

/* The slices of scratch, as ratmanoep_calc_path and ratmanoep_calc_paths take them. */
#define RATMANOEP_QUERY_SCRATCH(s)                                            \
    (s)->fwd_labels, ratmanoep_query_labels_places((s)->for_nodes),           \
    (s)->bwd_labels, ratmanoep_query_labels_places((s)->for_nodes),           \
    (s)->fwd_heap, ratmanoep_query_heap_places((s)->fwd_entries),             \
    (s)->bwd_heap, ratmanoep_query_heap_places((s)->bwd_entries)

/* ratmanoep_calc_path, several sources and targets. */
static inline ratmanoep_answer ratmanoep_route_between(
    const ratmanoep_hierarchy *h, ratmanoep_ends sources, ratmanoep_ends targets, const ratmanoep_query_scratch *s)
{
    ratmanoep_answer a;
    a.length = ratmanoep_calc_path(
        RATMANOEP_COLUMNS(h),
        sources.nodes, sources.count,
        sources.offsets, sources.count,
        targets.nodes, targets.count,
        targets.offsets, targets.count,
        s->path, ratmanoep_path_places(s->for_nodes),
        &a.number,
        &a.weight,
        RATMANOEP_QUERY_SCRATCH(s));
    return a;
}

/* ratmanoep_calc_path, from one node to another. */
static inline ratmanoep_answer ratmanoep_route(
    const ratmanoep_hierarchy *h, uint32_t source, uint32_t target, const ratmanoep_query_scratch *s)
{
    uint64_t offset = 0;
    ratmanoep_ends sources, targets;
    sources.count = targets.count = 1;
    sources.offsets = targets.offsets = &offset;
    sources.nodes = &source;
    targets.nodes = &target;
    return ratmanoep_route_between(h, sources, targets, s);
}

/* ratmanoep_calc_paths. Answers for fewer pairs than are asked are refused with 24. */
static inline uint32_t ratmanoep_routes(
    const ratmanoep_hierarchy *h, ratmanoep_pairs pairs, const ratmanoep_answers *a, const ratmanoep_query_scratch *s)
{
    return ratmanoep_calc_paths(
        RATMANOEP_COLUMNS(h),
        pairs.sources, pairs.count,
        pairs.targets, pairs.count,
        a->numbers, a->pairs,
        a->weights, a->pairs,
        a->lengths, a->pairs,
        a->paths, ratmanoep_paths_places(a->for_nodes, a->pairs),
        RATMANOEP_QUERY_SCRATCH(s));
}

/* The walk of pair k, of a->lengths[k] nodes, for answers that are for as many nodes as the hierarchy has. */
static inline const uint32_t *ratmanoep_walk(const ratmanoep_answers *a, size_t k) { return a->paths + k * a->for_nodes; }

#ifdef __cplusplus
}
#endif

#endif
