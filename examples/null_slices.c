/* Every slice of every call, one after the other, as NULL with length 0: a refusal, and nothing else. tools/c-example runs it. */
#include <stdio.h>

#include "ratmanoep.h"

typedef struct {
    void *at;
    size_t length;
} slice;

#define SLICE(array) {array, sizeof(array) / sizeof(array)[0]}
#define S(k) s[k].at, s[k].length
#define S13(k) S(k), S(k + 1), S(k + 2), S(k + 3), S(k + 4), S(k + 5), S(k + 6), S(k + 7), S(k + 8), S(k + 9), S(k + 10), S(k + 11), S(k + 12)

/* Case L, and the tables that are built of it. */
static uint32_t tails[] = {0, 1}, heads[] = {1, 2}, link_weights[] = {2, 3}, order[] = {1, 0, 2};
static uint32_t ranks[3], fwd_starts[4], fwd_bases[3], fwd_neighbours[3], fwd_ins[3], fwd_outs[3];
static uint32_t bwd_starts[4], bwd_bases[3], bwd_neighbours[3], bwd_ins[3], bwd_outs[3], arcs[36], nodes[12];
static uint64_t fwd_weights[3], bwd_weights[3], weights[6], labels[6], heap[14];
static uint32_t sources[] = {0}, targets[] = {2}, path[3];
static uint64_t offsets[] = {0}, fwd_labels[12], bwd_labels[12], fwd_heap[38], bwd_heap[38];
static uint32_t numbers[1], lengths[1], paths[3];
static uint64_t path_weights[1];
static uint8_t input[1], out[20];

#define TABLES                                                                                                              \
    SLICE(ranks), SLICE(fwd_starts), SLICE(fwd_bases), SLICE(fwd_neighbours), SLICE(fwd_weights), SLICE(fwd_ins),           \
    SLICE(fwd_outs), SLICE(bwd_starts), SLICE(bwd_bases), SLICE(bwd_neighbours), SLICE(bwd_weights), SLICE(bwd_ins),        \
    SLICE(bwd_outs)

static uint32_t build(const slice *s)
{
    return ratmanoep_build_with_order(3, S(0), S(1), S(2), S(3), 100, 6, S13(4), S(17), S(18), S(19), S(20), S(21));
}

static uint32_t check(const slice *s)
{
    return ratmanoep_check_tables(3, S13(0));
}

static uint32_t query(const slice *s)
{
    uint32_t number;
    uint64_t weight;
    ratmanoep_calc_path(3, S13(0), S(13), S(14), S(15), S(16), S(17), &number, &weight, S(18), S(19), S(20), S(21));
    return number;
}

static uint32_t queries(const slice *s)
{
    return ratmanoep_calc_paths(3, S13(0), S(13), S(14), S(15), S(16), S(17), S(18), S(19), S(20), S(21), S(22));
}

static uint32_t records(const slice *s)
{
    return (uint32_t)ratmanoep_answer_records(S(0), S(1)); /* the length of "bad record 0" and its line end */
}

/* The answer with all slices lent, then without each, then without any. */
static void without_each(const char *name, uint32_t (*call)(const slice *), const slice *lent, size_t count)
{
    slice s[23];
    printf("%s:", name);
    for (size_t k = 0; k < count; k++) {
        s[k] = lent[k];
    }
    printf(" %u,", call(s));
    for (size_t k = 0; k < count; k++) {
        s[k].at = NULL;
        s[k].length = 0;
        printf(" %u", call(s));
        s[k] = lent[k];
    }
    for (size_t k = 0; k < count; k++) {
        s[k].at = NULL;
        s[k].length = 0;
    }
    printf(", %u\n", call(s));
}

int main(void)
{
    const slice built[] = {SLICE(tails), SLICE(heads), SLICE(link_weights), SLICE(order), TABLES,
                           SLICE(arcs), SLICE(weights), SLICE(nodes), SLICE(labels), SLICE(heap)};
    const slice checked[] = {TABLES};
    const slice asked[] = {TABLES, SLICE(sources), SLICE(offsets), SLICE(targets), SLICE(offsets), SLICE(path),
                           SLICE(fwd_labels), SLICE(bwd_labels), SLICE(fwd_heap), SLICE(bwd_heap)};
    const slice many[] = {TABLES, SLICE(sources), SLICE(targets), SLICE(numbers), SLICE(path_weights), SLICE(lengths), SLICE(paths),
                          SLICE(fwd_labels), SLICE(bwd_labels), SLICE(fwd_heap), SLICE(bwd_heap)};
    const slice read[] = {SLICE(input), SLICE(out)};
    without_each("build", build, built, 22);
    without_each("check", check, checked, 13);
    without_each("query", query, asked, 22);
    without_each("queries", queries, many, 23);
    without_each("records", records, read, 2);
    return 0;
}
