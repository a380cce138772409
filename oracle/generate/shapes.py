"""The four kinds of cases, without their answers, in the form of ../shared/vectors/base.jsonl."""

FILL = 77


def build(nodes, links, order, limit, pool=None, fwd=None, bwd=None, filled=FILL):
    """Rooms that are not given are always enough."""
    enough = nodes * (nodes - 1) // 2
    columns = list(zip(*links)) or [(), (), ()]
    return {
        "kind": "build",
        "nodes": nodes,
        "links": {name: list(column) for name, column in zip(("from", "to", "weight"), columns)},
        "order": list(order),
        "limit": limit,
        "pool": 2 * enough if pool is None else pool,
        "lent": {
            "ranks": nodes,
            "fwd_starts": nodes + 1,
            "bwd_starts": nodes + 1,
            "fwd": [enough if fwd is None else fwd] * 5,
            "bwd": [enough if bwd is None else bwd] * 5,
        },
        "filled_with": filled,
    }


def tables(built):
    """The lent places of an answered build, as the tables of a check or a query."""
    after = built["after"]
    return {"nodes": built["nodes"], **{name: after[name] for name in ("ranks", "fwd_starts", "fwd", "bwd_starts", "bwd")}}


def used(built):
    """The same without the places beyond those used."""
    cut = tables(built)
    for name, count in zip(("fwd", "bwd"), built["entries"]):
        cut[name] = [column[:count] for column in cut[name]]
    return cut


def check(tables):
    return {"kind": "check", **tables}


def query(tables, sources, targets, path_places=None, filled=FILL):
    return {
        "kind": "query",
        **tables,
        "sources": [list(end) for end in sources],
        "targets": [list(end) for end in targets],
        "path_places": tables["nodes"] if path_places is None else path_places,
        "filled_with": filled,
    }


def search(nodes, links, start, avoid, limit, asks):
    """An ask is a target and a sum."""
    columns = build(nodes, links, [], limit)["links"]
    return {
        "kind": "search",
        "nodes": nodes,
        "links": columns,
        "start": start,
        "avoid": avoid,
        "limit": limit,
        "asks_target_sum_answer_count": [list(ask) for ask in asks],
    }
