"""The cases of document 01, and the smallest inputs that tell its readings apart."""

import oracle
from generate import shapes
from oracle import MAX_SUM, NO_WEIGHT

HEAVIEST = 2**32 - 1
L = [(0, 1, 2), (1, 2, 3)]
SQUARE = [(0, 1, 1), (0, 2, 1), (1, 3, 1), (2, 3, 1)]


def line(last, both_ways=False, direct=(), limit=100):
    """Nodes 0 to last in a row, all links as heavy as can be, and a link from end to end if it has a weight; inner nodes first."""
    links = [(a, a + 1, HEAVIEST) for a in range(last)]
    if both_ways:
        links += [(b, a, weight) for a, b, weight in links]
    links += [(0, last, weight) for weight in direct]
    order = [*range(1, last), 0, last]
    room = 2 * len(links)
    return shapes.build(last + 1, sorted(links), order, limit, pool=room, fwd=room, bwd=room)


def single(source, target):
    return [(source, 0)], [(target, 0)]


# A build, and the ends of the queries on what it makes.
BUILT = [
    (shapes.build(3, L, [1, 0, 2], 100), [
        single(0, 2), single(2, 0), single(1, 1), single(0, 7),
        ([(0, 10), (1, 4)], [(2, 0)]),
        ([(1, 9), (1, 4)], [(1, 1)]),
        ([(0, MAX_SUM)], [(2, MAX_SUM)]),
        ([(0, MAX_SUM + 1)], [(2, 0)]),
        ([(0, NO_WEIGHT)], [(2, 0)]),
        ([(7, NO_WEIGHT)], [(2, 0)]),
        ([], [(2, 0)]),
        ([(0, 0)] * 16, [(2, 0)] * 16),
        ([(0, 0)] * 17, [(2, 0)]),
    ]),
    (shapes.build(3, [L[0], (0, 2, 5), L[1]], [1, 0, 2], 100), [single(0, 2)]),
    (shapes.build(3, [L[0], (0, 2, 6), L[1]], [1, 0, 2], 100), [single(0, 2)]),
    *((shapes.build(4, SQUARE, [1, 2, 0, 3], limit), [single(0, 3)]) for limit in (0, 1, 2, HEAVIEST)),
    (shapes.build(0, [], [], 100), [single(0, 0)]),
    (shapes.build(4, [(0, 1, 1), (0, 2, 1), (1, 2, 1), (1, 3, 1), (2, 3, 1)], [1, 0, 2, 3], 1), []),
    (shapes.build(2, [], [0, 1], 100), [([(0, 0), (1, 0)], [(1, 0), (0, 0)])]),
    (shapes.build(2, [(0, 1, 1)], [0, 1], 100), [([(0, 0), (1, 1)], [(1, 0)])]),
    (shapes.build(4, [(1, 0, 1), (2, 1, 3)], [1, 0, 3, 2], 100), [([(1, 3), (2, 0)], [(0, 1), (3, 0)])]),
    (shapes.build(3, [(0, 1, 1), (1, 0, 1), (2, 0, 1)], [0, 2, 1], 1), [single(2, 0)]),
    (shapes.build(3, [(1, 0, 1), (2, 0, 1)], [1, 0, 2], 100), [([(2, MAX_SUM), (1, MAX_SUM)], [(0, 0)])]),
    (line(256), [single(0, 256)]),
    (line(130, both_ways=True), [single(130, 0)]),
    *((line(257, direct=[1], limit=limit), [single(0, 257), single(1, 257)]) for limit in (0, 1)),
]

REFUSED = [
    shapes.build(3, L, [1, 1, 2], 100),
    shapes.build(3, L, [0, 1], 100),
    shapes.build(3, L, [0, 1, 3], 100),
    shapes.build(3, L, [1, 0, 2], 100, pool=2),
    shapes.build(3, L, [1, 0, 2], 100, pool=2, bwd=0),
    shapes.build(2, [(0, 1, 1)], [0, 1], 100, pool=0),
    shapes.build(1025, [], range(1025), 100, fwd=0, bwd=0),
    shapes.build(182, [(0, 1, 1)] * 16385, range(182), 100, fwd=0, bwd=0),
    line(257),
]

# Tables that pass the check and that no build made.
MARK = oracle.NO_NODE
UNBUILT = [
    # The answered weight, 20, is not the walk's.
    ({
        "nodes": 4,
        "ranks": [0, 1, 2, 3],
        "fwd_starts": [0, 1, 2, 2, 2],
        "fwd": [[0, 1], [1, 3], [1, 1], [MARK, MARK], [MARK, MARK]],
        "bwd_starts": [0, 0, 1, 1, 1],
        "bwd": [[1], [2], [1], [MARK], [MARK]],
    }, [([(1, 10), (0, 5), (2, 3)], [(1, 10), (3, 3)], 4)]),
    # The walk from 2 to 3 passes node 0 twice: 2, 0, 1, 0, 3.
    ({
        "nodes": 4,
        "ranks": [0, 1, 2, 3],
        "fwd_starts": [0, 2, 3, 4, 4],
        "fwd": [[0, 0, 1, 2], [1, 3, 3, 3], [1, 1, 2, 4], [MARK, MARK, 1, 2], [MARK, MARK, 1, 2]],
        "bwd_starts": [0, 2, 3, 3, 3],
        "bwd": [[0, 0, 1], [2, 1, 2], [1, 1, 2], [MARK, MARK, 0], [MARK, MARK, 0]],
    }, [(*single(2, 3), 4), (*single(2, 3), 5)]),
]



def plain(nodes, fwd, bwd, unused=()):
    """Tables in which node v has rank v, of entries [base, neighbour, weight] that are links; the unused ones stand behind the forward table's."""
    starts = lambda entries: [sum(base < rank for base, _, _ in entries) for rank in range(nodes + 1)]
    columns = lambda entries: [list(column) for column in zip(*([*entry, MARK, MARK] for entry in entries))] or [[] for _ in range(5)]
    return {
        "nodes": nodes,
        "ranks": list(range(nodes)),
        "fwd_starts": starts(fwd),
        "fwd": columns([*fwd, *unused]),
        "bwd_starts": starts(bwd),
        "bwd": columns(bwd),
    }


# One neighbour twice among the entries of a node, and what is none (request 7).
TWICE = [
    plain(2, [(0, 1, 1), (0, 1, 1)], []),
    plain(2, [], [(0, 1, 1), (0, 1, 1)]),
    plain(2, [(0, 1, 1), (0, 1, 2)], []),
    plain(3, [(0, 1, 1), (0, 2, 1), (0, 1, 1)], []),
    plain(3, [(0, 1, 1)], [(1, 2, 1), (1, 2, 2)]),
]
ONCE = [
    plain(2, [(0, 1, 1)], [(0, 1, 1)]),  # one in each table
    plain(3, [(0, 2, 1), (1, 2, 1)], [(0, 2, 1), (1, 2, 1)]),  # of two nodes
    plain(2, [(0, 1, 1)], [], unused=[(0, 1, 1)]),  # a place beyond the last start
]


def cases():
    yield from REFUSED
    yield shapes.build(1024, [], range(1024), 100, fwd=0, bwd=0)
    yield from (build for build, _ in BUILT)
    for answered, (_, ends) in zip(oracle.answers(build for build, _ in BUILT), BUILT):
        yield from on_tables(shapes.used(answered), ends)
    for tables, ends in UNBUILT:
        yield from on_tables(tables, ends)
    for tables in TWICE + ONCE:
        # without sources: 20 comes before 21
        yield from on_tables(tables, [([], [(1, 0)]), single(0, 1), single(1, 0)])


def on_tables(tables, ends):
    yield shapes.check(tables)
    yield from (shapes.query(tables, *each) for each in ends)
