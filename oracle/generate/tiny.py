"""Every graph of up to three nodes with weights 1 and 2, every order, limits 0 to 3."""

import itertools

import oracle
from generate import shapes

LIMITS = range(4)
WEIGHTS = (0, 1, 2)  # 0: no link


def graphs():
    for nodes in range(4):
        ends = list(itertools.permutations(range(nodes), 2))
        for weights in itertools.product(WEIGHTS, repeat=len(ends)):
            yield nodes, [(a, b, weight) for (a, b), weight in zip(ends, weights) if weight]


def searches(nodes, links):
    for start, avoid in itertools.permutations(range(nodes), 2):
        asks = [(target, total) for target in range(nodes) if target != avoid for total in range(5)]
        for limit in LIMITS:
            yield shapes.search(nodes, links, start, avoid, limit, asks)


def queries(tables):
    yield shapes.check(tables)
    for source, target in itertools.product(range(tables["nodes"]), repeat=2):
        yield shapes.query(tables, [(source, 0)], [(target, 0)])


def cases():
    builds = []
    for nodes, links in graphs():
        yield from searches(nodes, links)
        for order in itertools.permutations(range(nodes)):
            builds += [shapes.build(nodes, links, order, limit) for limit in LIMITS]
    yield from builds
    # Different limits often give the same hierarchy: it is asked once.
    hierarchies = {repr(tables): tables for tables in map(shapes.used, oracle.answers(builds))}
    for tables in hierarchies.values():
        yield from queries(tables)
