"""Tables for checks and queries: as built, with room to spare, damaged, made up, or with one neighbour twice.

Made-up tables keep the table rules though no build made them; there only the steps of the query decide,
so they show more than built ones.
"""

import copy

from generate import shapes
from oracle import MAX_SUM, NO_NODE, NO_WEIGHT

BASE, NEIGHBOUR, WEIGHT, IN, OUT = range(5)


def some_tables(rng, answered):
    way = rng.random()
    if way < 0.4:
        return shapes.used(answered)
    if way < 0.5:
        return shapes.tables(answered)
    if way < 0.75:
        return made_up(rng, answered["nodes"])
    lent = copy.deepcopy(rng.choice((shapes.used(answered), shapes.tables(answered), made_up(rng, answered["nodes"]))))
    if way < 0.85:
        twin(rng, lent)
        return lent
    for _ in range(rng.choice((1, 1, 1, 2))):
        damage(rng, lent)
    return lent


def twin(rng, lent):
    """An entry more, a link of any weight, to a neighbour that its node has an entry to already; starts and numbers move along."""
    side = rng.choice([side for side in ("fwd", "bwd") if lent[side + "_starts"][lent["nodes"]]] or [None])
    if side is None:
        return
    starts, columns = lent[side + "_starts"], lent[side]
    of = rng.randrange(starts[lent["nodes"]])
    rank = max(rank for rank in range(lent["nodes"]) if starts[rank] <= of)
    at = rng.randint(starts[rank], starts[rank + 1])
    more = columns[BASE][of], columns[NEIGHBOUR][of], rng.choice((columns[WEIGHT][of], 1, 2)), NO_NODE, NO_NODE
    for column, number in zip(columns, more):
        column.insert(at, number)
    for later in range(rank + 1, lent["nodes"] + 1):
        starts[later] += 1
    naming = OUT if side == "fwd" else IN
    for numbers in (lent["fwd"][naming], lent["bwd"][naming]):
        numbers[:] = [number + (at <= number < NO_NODE) for number in numbers]


def damage(rng, lent):
    """Changes a number somewhere, or a length; what is changed may well be a place that is not used."""
    side = rng.choice(("fwd", "bwd"))
    weights = lent[side][WEIGHT]
    column = rng.choice((lent["ranks"], lent[side + "_starts"], *lent[side], *lent[side]))
    if not column or rng.random() < 0.1:
        column.append(0) if not column or rng.random() < 0.5 else column.pop()
        return
    i = rng.randrange(len(column))
    largest = (MAX_SUM, MAX_SUM + 1, NO_WEIGHT) if column is weights else (lent["nodes"], NO_NODE, NO_NODE)
    number = rng.choice((column[i] + 1, column[i] - 1, rng.choice(column), 0, *largest))
    column[i] = min(max(number, 0), largest[-1])


def made_up(rng, nodes):
    ranks = rng.sample(range(nodes), nodes)
    order = sorted(range(nodes), key=ranks.__getitem__)
    sides = {"fwd": [[] for _ in range(5)], "bwd": [[] for _ in range(5)]}
    starts = {"fwd": [0], "bwd": [0]}
    # In a tower every entry is the heaviest shortcut there can be: walks grow longer than the path buffer.
    tower = nodes <= 8 and rng.random() < 0.3
    for rank, base in enumerate(order):
        above = order[rank + 1:]
        for side, columns in sides.items():
            for neighbour in above if tower else rng.sample(above, k=min(len(above), rng.randint(0, 3))):
                entry = some_entry(rng, sides, side, base, neighbour, tower)
                for column, number in zip(columns, entry):
                    column.append(number)
            starts[side].append(len(columns[BASE]))
    return {
        "nodes": nodes, "ranks": ranks,
        "fwd_starts": starts["fwd"], "fwd": sides["fwd"],
        "bwd_starts": starts["bwd"], "bwd": sides["bwd"],
    }


def some_entry(rng, sides, side, base, neighbour, tower):
    """A shortcut over lower entries if there are fitting ones, most times; else an entry of its own."""
    tail, head = (base, neighbour) if side == "fwd" else (neighbour, base)
    fwd, bwd = sides["fwd"], sides["bwd"]
    shortcuts = [
        (bwd[WEIGHT][i] + fwd[WEIGHT][o], i, o)
        for i, centre in enumerate(bwd[BASE]) if bwd[NEIGHBOUR][i] == tail
        for o, same in enumerate(fwd[BASE]) if same == centre != base and fwd[NEIGHBOUR][o] == head
    ]
    if shortcuts and (tower or rng.random() < 0.8):
        weight, i, o = max(shortcuts) if tower else rng.choice(shortcuts)
        if weight <= MAX_SUM:
            return base, neighbour, weight, i, o
    weight = 1 if tower else rng.choice((1, 1, 2, rng.randint(1, 9), rng.randint(1, MAX_SUM)))
    return base, neighbour, weight, NO_NODE, NO_NODE
