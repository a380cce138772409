"""Cases at random: all kinds of graphs, limits, rooms and faults."""

import itertools
import random

import oracle
from generate import shapes, tables
from oracle import MAX_SUM, NO_NODE, NO_WEIGHT

HEAVIEST = 2**32 - 1
# Few different weights make many ties, which is where orders of events show.
WEIGHTS = ((1, 1), (1, 2), (1, 3), (1, 9), (1, HEAVIEST), (HEAVIEST - 2, HEAVIEST))
BATCH = 64


def some_graph(rng, most_nodes):
    nodes = max(rng.randint(0, most_nodes), rng.randint(0, most_nodes))
    density = rng.choice((0.1, 0.3, 0.5, 0.8, 1.0))
    if nodes > 12:
        density = min(density, 4 / nodes)
    low, high = rng.choice(WEIGHTS)
    links = [
        (a, b, rng.randint(low, high))
        for a in range(nodes) for b in range(nodes) if a != b and rng.random() < density
    ]
    return nodes, links


def some_limit(rng, nodes):
    return rng.choice((0, 1, 2, 3, nodes, nodes + 1, 100, HEAVIEST))


def roomy_build(rng, most_nodes):
    nodes, links = some_graph(rng, most_nodes)
    order = rng.sample(range(nodes), nodes)
    return shapes.build(nodes, links, order, some_limit(rng, nodes), filled=rng.choice((77, 0, NO_NODE)))


def room_build(rng, answered):
    """The same build with each room exactly enough, one less, or more."""
    case = {name: answered[name] for name in answered if name not in ("number", "entries", "after", "peak")}
    lent = case["lent"] = dict(case["lent"])
    room = lambda exact: max(0, exact + rng.choice((0, 0, 0, 0, -1, 1, 5)))
    case["pool"] = room(answered["peak"])
    lent["fwd"] = [room(answered["entries"][0])] * 5
    lent["bwd"] = [room(answered["entries"][1])] * 5
    for name in ("ranks", "fwd_starts", "bwd_starts"):
        lent[name] += rng.choice((0, 0, 2))
    return case


# What a build is refused for before any work, 1 to 9. Each changes the case, as far as there is something
# to change.


def fault_nodes(rng, case):
    case["nodes"] = rng.choice((1025, 2000))


def fault_columns(rng, case):
    case["links"][rng.choice(("from", "to", "weight"))].append(1)


def fault_link_node(rng, case):
    column = case["links"][rng.choice(("from", "to"))]
    if column:
        column[rng.randrange(len(column))] = case["nodes"] + rng.choice((0, 1, 7))


def fault_loop(rng, case):
    links = case["links"]
    if links["from"]:
        i = rng.randrange(len(links["from"]))
        links["to"][i] = links["from"][i]


def fault_weight(rng, case):
    if case["links"]["weight"]:
        case["links"]["weight"][rng.randrange(len(case["links"]["weight"]))] = 0


def fault_ascending(rng, case):
    links = case["links"]
    if len(links["from"]) > 1:
        i = rng.randrange(len(links["from"]) - 1)
        swapped = rng.choice(((i + 1, i), (i, i)))  # the wrong way round, or one twice
        for column in links.values():
            column[i:i + 2] = [column[j] for j in swapped]


def fault_order_length(rng, case):
    if case["order"] and rng.random() < 0.5:
        case["order"].pop()
    else:
        case["order"].append(0)


def fault_order(rng, case):
    if case["order"]:
        case["order"][rng.randrange(len(case["order"]))] = rng.choice((case["nodes"], case["order"][0], NO_NODE))


def fault_lent(rng, case):
    lent = case["lent"]
    name = rng.choice(("ranks", "fwd_starts", "bwd_starts", "fwd", "bwd"))
    if name in ("fwd", "bwd"):
        lent[name][rng.randrange(5)] += 1
    else:
        lent[name] = max(0, case["nodes"] + (name != "ranks") - 1)


FAULTS = (
    fault_nodes, fault_columns, fault_link_node, fault_loop, fault_weight,
    fault_ascending, fault_order_length, fault_order, fault_lent,
)


def faulty_build(rng, answered):
    """One fault or two, so that the lowest number shows; the higher goes in first, into sound columns."""
    case = room_build(rng, answered)
    case["links"] = {name: list(column) for name, column in case["links"].items()}
    case["order"] = list(case["order"])
    for number in sorted(rng.sample(range(9), rng.choice((1, 1, 2))), reverse=True):
        FAULTS[number](rng, case)
    return case


def some_search(rng, answered):
    """Several targets from one start, with sums as a contraction forms them and one off."""
    nodes = answered["nodes"]
    if nodes < 2:
        return room_build(rng, answered)
    weights = answered["links"]["weight"] or [1]
    start, avoid = rng.sample(range(nodes), 2)
    targets = [node for node in range(nodes) if node != avoid]
    asks = [
        (rng.choice(targets), max(0, rng.choice(weights) + rng.choice(weights) * rng.choice((0, 1, 2)) + rng.choice((-1, 0, 1))))
        for _ in range(rng.randint(1, 6))
    ]
    links = list(zip(*answered["links"].values()))
    return shapes.search(nodes, links, start, avoid, some_limit(rng, nodes), asks)


def some_ends(rng, nodes):
    count = rng.choice((1, 1, 1, 2, 2, 3, 5, 16))
    offsets = (0, 0, 0, 1, 2, rng.randint(0, 9), rng.randint(0, MAX_SUM), MAX_SUM, NO_WEIGHT)
    return [[rng.randrange(nodes or 1), rng.choice(offsets)] for _ in range(count)]


def query_on(rng, lent):
    """Most with good ends; the rest has something wrong with them."""
    nodes = lent["nodes"]
    sources, targets = some_ends(rng, nodes), some_ends(rng, nodes)
    places = nodes + rng.choice((0, 0, 0, 3))
    if rng.random() < 0.15:
        end = rng.choice(rng.choice((sources, targets)))
        wrong = rng.randrange(4)
        if wrong == 0:
            sources[:] = rng.choice(([], [sources[0]] * 17))
        elif wrong == 1:
            end[0] = rng.choice((nodes, NO_NODE))
        elif wrong == 2:
            end[1] = rng.choice((MAX_SUM + 1, NO_WEIGHT - 1))
        else:
            places = max(0, nodes - 1)
    return shapes.query(lent, sources, targets, places, filled=rng.choice((77, 0)))


def some_query(rng, answered):
    return query_on(rng, tables.some_tables(rng, answered))


def some_check(rng, answered):
    return shapes.check(tables.some_tables(rng, answered))


KINDS = (room_build, room_build, faulty_build, some_search, some_search, some_check, some_query, some_query, some_query)


def hierarchies(rng, most_nodes):
    """Answered builds without end."""
    while True:
        yield from oracle.answers([roomy_build(rng, most_nodes) for _ in range(BATCH)], "--peak")


def cases(seed, count, most_nodes):
    rng = random.Random(seed)
    every = (make(rng, answered) for answered in hierarchies(rng, most_nodes) for make in KINDS)
    return itertools.islice(every, count)
