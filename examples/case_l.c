/* Case L of document 01, linked: two links in a line are built and asked. tools/c-example compiles and runs it. */
#include <inttypes.h>
#include <stdio.h>
#include <stdlib.h>

#include "ratmanoep.h"

static void print_refusal(uint32_t number)
{
    printf("refused %" PRIu32 ": %s\n", number, ratmanoep_sentence(number));
}

static void print_answer(ratmanoep_answer a, const uint32_t *path)
{
    if (a.number != RATMANOEP_DONE) {
        print_refusal(a.number);
        return;
    }
    if (a.weight == RATMANOEP_WEIGHT_MAX) {
        puts("none");
        return;
    }
    printf("route %" PRIu64 ":", a.weight);
    for (size_t i = 0; i < a.length; i++) {
        printf(" %" PRIu32, path[i]);
    }
    puts("");
}

static void *lent(size_t bytes)
{
    void *memory = malloc(bytes);
    if (memory == NULL) {
        fputs("there is no memory\n", stderr);
        exit(1);
    }
    return memory;
}

/* Builds in a pool that is large enough for any graph of this size, and frees it. */
static uint32_t build(const ratmanoep_graph *g, const ratmanoep_hierarchy *h)
{
    uint64_t pool = ratmanoep_pool_enough(g->nodes);
    void *memory = lent(ratmanoep_build_scratch_bytes(g->nodes, pool));
    ratmanoep_build_scratch scratch = ratmanoep_build_scratch_in(memory, g->nodes, pool);
    uint32_t number = ratmanoep_build(g, 100, h, &scratch);
    free(memory);
    return number;
}

int main(void)
{
    const uint32_t tails[] = {0, 1}, heads[] = {1, 2}, weights[] = {2, 3};
    const uint32_t order[] = {1, 0, 2}, twice[] = {1, 1, 2};
    ratmanoep_graph graph = {3, 2, tails, heads, weights, order};
    size_t entries = ratmanoep_entries_enough(graph.nodes);

    void *tables = lent(ratmanoep_hierarchy_bytes(graph.nodes, entries, entries));
    ratmanoep_hierarchy hierarchy = ratmanoep_hierarchy_in(tables, graph.nodes, entries, entries);

    graph.order = twice;
    print_refusal(build(&graph, &hierarchy)); /* an order that names a node twice */
    graph.order = order;
    uint32_t number = build(&graph, &hierarchy);
    if (number != RATMANOEP_DONE) {
        print_refusal(number);
        return 1;
    }
    size_t fwd = ratmanoep_used(&hierarchy, &hierarchy.fwd), bwd = ratmanoep_used(&hierarchy, &hierarchy.bwd);
    printf("built %zu %zu\n", fwd, bwd);
    printf("check %" PRIu32 "\n", ratmanoep_check(&hierarchy));

    void *memory = lent(ratmanoep_query_scratch_bytes(graph.nodes, fwd, bwd));
    ratmanoep_query_scratch scratch = ratmanoep_query_scratch_in(memory, graph.nodes, fwd, bwd);
    print_answer(ratmanoep_route(&hierarchy, 0, 2, &scratch), scratch.path);
    print_answer(ratmanoep_route(&hierarchy, 2, 0, &scratch), scratch.path); /* links have a direction */
    print_answer(ratmanoep_route(&hierarchy, 1, 1, &scratch), scratch.path);
    print_answer(ratmanoep_route(&hierarchy, 0, 7, &scratch), scratch.path); /* there is no node 7 */

    /* From 0 at 10 or from 1 at 4. */
    const uint32_t nodes[] = {0, 1}, target[] = {2};
    const uint64_t offsets[] = {10, 4}, none[] = {0};
    ratmanoep_ends sources = {2, nodes, offsets}, targets = {1, target, none};
    print_answer(ratmanoep_route_between(&hierarchy, sources, targets, &scratch), scratch.path);

    free(memory);
    free(tables);
    return 0;
}
