"""Answered cases as records of the fixed list, and back."""

from fixed.layout import BUILD, COLUMNS, HIERARCHY, QUERY, SIDES, decode, encode
from generate import shapes
from oracle import NO_NODE, NO_WEIGHT

MAGIC = {"build": b"FPB1", "query": b"FPQ1"}
TABLES = ("nodes", "ranks", "fwd_starts", "fwd", "bwd_starts", "bwd")


def columns_of(tables):
    return {f"{side}_{name}": column for side in SIDES for name, column in zip(COLUMNS, tables[side])}


def tables_from(record):
    columns = {side: [record[f"{side}_{name}"] for name in COLUMNS] for side in SIDES}
    return {name: columns.get(name, record.get(name)) for name in TABLES}


def build_bytes(case):
    fwd, bwd = case["entries"]
    built = case["number"] == 0
    marked = case["number"] >= 10
    record = {
        **case, **case["links"], **columns_of(shapes.used(case)), **{f"lent_{name}": size for name, size in case["lent"].items()},
        "froms": len(case["links"]["from"]), "tos": len(case["links"]["to"]), "weights": len(case["links"]["weight"]),
        "orders": len(case["order"]), "fwd": fwd, "bwd": bwd,
        "used_ranks": case["nodes"] if built else 0, "used_starts": case["nodes"] + 1 if built else 0,
        "rest": NO_NODE if marked else case["filled_with"], "weight_rest": NO_WEIGHT if marked else case["filled_with"],
    }
    for name, used in (("ranks", "used_ranks"), ("fwd_starts", "used_starts"), ("bwd_starts", "used_starts")):
        record[name] = case["after"][name][:record[used]]
    return encode(BUILD, record)


def build_case(data, at):
    record, at = decode(BUILD, data, at)
    lent = {name: record[f"lent_{name}"] for name in ("ranks", "fwd_starts", "bwd_starts", *SIDES)}
    filled = lambda column, size, rest: column + [rest] * (size - len(column))
    after = {name: filled(record[name], lent[name], record["rest"]) for name in ("ranks", "fwd_starts", "bwd_starts")}
    for side, table in tables_from(record).items():
        if side in SIDES:
            rests = [record["weight_rest" if name == "weight" else "rest"] for name in COLUMNS]
            after[side] = list(map(filled, table, lent[side], rests))
    yield {
        "kind": "build",
        **{name: record[name] for name in ("nodes", "order", "limit", "pool", "filled_with", "number")},
        "links": {name: record[name] for name in ("from", "to", "weight")},
        "lent": lent, "entries": [record["fwd"], record["bwd"]], "after": after,
    }
    return at


def group_bytes(group):
    """A check, and queries on the same tables."""
    check, *queries = group
    record = {
        **check, **columns_of(check), "queries": len(queries),
        "rank_places": len(check["ranks"]),
        **{f"{side}_start_places": len(check[f"{side}_starts"]) for side in SIDES},
        **{f"{side}_places": [len(column) for column in check[side]] for side in SIDES},
    }
    return encode(HIERARCHY, record) + b"".join(map(query_bytes, queries))


def query_bytes(case):
    record = {**case, "walk": case["path"][:case["length"]]}
    for ends, end in (("sources", "source"), ("targets", "target")):
        record[f"{end}_node"] = [node for node, _ in case[ends]]
        record[f"{end}_offset"] = [offset for _, offset in case[ends]]
        record[ends] = len(case[ends])
    return encode(QUERY, record)


def group_cases(data, at):
    record, at = decode(HIERARCHY, data, at)
    tables = tables_from(record)
    yield {**shapes.check(tables), "number": record["number"]}
    for _ in range(record["queries"]):
        query, at = decode(QUERY, data, at)
        ends = (list(zip(query[f"{end}_node"], query[f"{end}_offset"])) for end in ("source", "target"))
        path = query["walk"] + [query["filled_with"]] * (query["path_places"] - query["length"])
        yield {
            **shapes.query(tables, *ends, query["path_places"], query["filled_with"]),
            **{name: query[name] for name in ("number", "weight", "length")}, "path": path,
        }
    return at


READ = {b"FPB1": build_case, b"FPQ1": group_cases}


def file_bytes(magic, records):
    return magic + len(records).to_bytes(4, "little") + b"".join(records)


def file_cases(data):
    """All cases of a file, which must end with the last of them."""
    at = 8
    for _ in range(int.from_bytes(data[4:8], "little")):
        at = yield from READ[data[:4]](data, at)
    assert at == len(data), "bytes after the last case"
