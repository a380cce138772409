/* A mesh of 64 nodes, built in little room that grows where a build meets 10 or 11, and every route compared with a weight that is worked
 * out the slow way. tools/c-example compiles and runs it. */
#include <inttypes.h>
#include <stdio.h>
#include <stdlib.h>

#include "ratmanoep.h"

enum { SIDE = 8, NODES = SIDE * SIDE, MOST_LINKS = 4 * NODES };

static uint32_t tails[MOST_LINKS], heads[MOST_LINKS], weights[MOST_LINKS], order[NODES];
static uint64_t least[NODES][NODES]; /* 0 to itself, RATMANOEP_WEIGHT_MAX where there is no walk */

static void stop(const char *what)
{
    puts(what);
    exit(1);
}

static void *lent(size_t bytes)
{
    void *memory = malloc(bytes);
    if (memory == NULL) {
        stop("there is no memory");
    }
    return memory;
}

/* Links between neighbours, ascending by (from, to); the weight depends on the direction. */
static ratmanoep_graph mesh(void)
{
    size_t links = 0;
    for (uint32_t v = 0; v < NODES; v++) {
        for (uint32_t w = 0; w < NODES; w++) {
            uint32_t across = v / SIDE == w / SIDE && (v + 1 == w || w + 1 == v), down = v + SIDE == w || w + SIDE == v;
            if (across || down) {
                tails[links] = v;
                heads[links] = w;
                weights[links] = 1 + (17 * v + 31 * w) % 23;
                links++;
            }
        }
        order[v] = 37 * v % NODES; /* 37 and 64 have no factor in common: each node once */
    }
    ratmanoep_graph g = {NODES, links, tails, heads, weights, order};
    return g;
}

/* Floyd and Warshall's. */
static void work_out(const ratmanoep_graph *g)
{
    for (size_t v = 0; v < NODES; v++) {
        for (size_t w = 0; w < NODES; w++) {
            least[v][w] = v == w ? 0 : RATMANOEP_WEIGHT_MAX;
        }
    }
    for (size_t k = 0; k < g->links; k++) {
        least[g->tails[k]][g->heads[k]] = g->weights[k];
    }
    for (size_t by = 0; by < NODES; by++) {
        for (size_t v = 0; v < NODES; v++) {
            for (size_t w = 0; w < NODES; w++) {
                if (least[v][by] == RATMANOEP_WEIGHT_MAX || least[by][w] == RATMANOEP_WEIGHT_MAX) {
                    continue;
                }
                uint64_t sum = least[v][by] + least[by][w];
                least[v][w] = sum < least[v][w] ? sum : least[v][w];
            }
        }
    }
}

/* Tries with more room until there is enough; a pool of n(n - 1) and tables of n(n - 1)/2 always are. */
static ratmanoep_hierarchy build(const ratmanoep_graph *g, void **memory)
{
    uint64_t pool = g->links;
    size_t entries = g->links / 2;
    for (;;) {
        void *pool_memory = lent(ratmanoep_build_scratch_bytes(g->nodes, pool));
        ratmanoep_build_scratch scratch = ratmanoep_build_scratch_in(pool_memory, g->nodes, pool);
        *memory = lent(ratmanoep_hierarchy_bytes(g->nodes, entries, entries));
        ratmanoep_hierarchy h = ratmanoep_hierarchy_in(*memory, g->nodes, entries, entries);
        uint32_t number = ratmanoep_build(g, 50, &h, &scratch);
        free(pool_memory);
        if (number == RATMANOEP_DONE) {
            return h;
        }
        printf("refused %" PRIu32 ": %s\n", number, ratmanoep_sentence(number));
        free(*memory);
        if (number == RATMANOEP_POOL_FULL) {
            pool *= 2;
        } else if (number == RATMANOEP_TABLE_FULL) {
            entries *= 2;
        } else {
            stop("no room would help");
        }
    }
}

/* The weight of a walk over links of the mesh. */
static uint64_t weigh(const ratmanoep_graph *g, const uint32_t *walk, size_t length)
{
    uint64_t sum = 0;
    for (size_t i = 1; i < length; i++) {
        size_t k = 0;
        while (k < g->links && (g->tails[k] != walk[i - 1] || g->heads[k] != walk[i])) {
            k++;
        }
        if (k == g->links) {
            stop("a walk takes a link that is not there");
        }
        sum += g->weights[k];
    }
    return sum;
}

static void compare(ratmanoep_answer a, const ratmanoep_graph *g, const uint32_t *walk, uint32_t source, uint32_t target)
{
    if (a.number != RATMANOEP_DONE || a.weight != least[source][target]) {
        stop("a route does not weigh the least");
    }
    if (walk[0] != source || walk[a.length - 1] != target || weigh(g, walk, a.length) != a.weight) {
        stop("a walk does not weigh what is told");
    }
}

/* From one node to all, by one call. */
static void compare_all(const ratmanoep_hierarchy *h, const ratmanoep_graph *g, const ratmanoep_query_scratch *s, const ratmanoep_answers *all, uint32_t source)
{
    uint32_t sources[NODES], targets[NODES];
    ratmanoep_pairs pairs = {NODES, sources, targets};
    for (uint32_t k = 0; k < NODES; k++) {
        sources[k] = source;
        targets[k] = k;
    }
    if (ratmanoep_routes(h, pairs, all, s) != RATMANOEP_DONE) {
        stop("many routes are refused");
    }
    for (uint32_t k = 0; k < NODES; k++) {
        ratmanoep_answer a = {all->numbers[k], all->weights[k], all->lengths[k]};
        compare(a, g, ratmanoep_walk(all, k), source, k);
    }
}

int main(void)
{
    void *tables;
    ratmanoep_graph g = mesh();
    work_out(&g);
    ratmanoep_hierarchy h = build(&g, &tables);
    size_t fwd = ratmanoep_used(&h, &h.fwd), bwd = ratmanoep_used(&h, &h.bwd);
    if (ratmanoep_check(&h) != RATMANOEP_DONE) {
        stop("the tables break a rule");
    }
    void *memory = lent(ratmanoep_query_scratch_bytes(g.nodes, fwd, bwd));
    ratmanoep_query_scratch scratch = ratmanoep_query_scratch_in(memory, g.nodes, fwd, bwd);
    void *many = lent(ratmanoep_answers_bytes(g.nodes, NODES));
    ratmanoep_answers all = ratmanoep_answers_in(many, g.nodes, NODES);
    for (uint32_t source = 0; source < NODES; source++) {
        for (uint32_t target = 0; target < NODES; target++) {
            compare(ratmanoep_route(&h, source, target, &scratch), &g, scratch.path, source, target);
        }
        compare_all(&h, &g, &scratch, &all, source);
    }
    printf("%d routes over %zu links weigh the least, one by one and from one node to all\n", NODES * NODES, g.links);
    free(many);
    free(memory);
    free(tables);
    return 0;
}
