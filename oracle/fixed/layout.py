"""The bytes of the fixed list: one description of each record, for writing and for reading.

A field is its name, its width and how many of it there are: a number, or the name of an earlier field
that holds it (with an index, where that field is a list). README.md shows the same tables.
"""

import struct

U32, U64 = "I", "Q"
COLUMNS = ("base", "neighbour", "weight", "in", "out")
SIDES = ("fwd", "bwd")


def numbers(*names):
    return [(name, U32, 1) for name in names]


def columns(side, count):
    """The five columns of a table; `count` gives the length of the k-th."""
    return [(f"{side}_{name}", U64 if name == "weight" else U32, count(k)) for k, name in enumerate(COLUMNS)]


BUILD = [
    *numbers("nodes", "froms", "tos", "weights", "orders", "limit", "pool"),
    *numbers("lent_ranks", "lent_fwd_starts", "lent_bwd_starts"),
    ("lent_fwd", U32, 5), ("lent_bwd", U32, 5),
    *numbers("filled_with", "number", "fwd", "bwd", "used_ranks", "used_starts", "rest"),
    ("weight_rest", U64, 1),
    ("from", U32, "froms"), ("to", U32, "tos"), ("weight", U32, "weights"), ("order", U32, "orders"),
    ("ranks", U32, "used_ranks"), ("fwd_starts", U32, "used_starts"), ("bwd_starts", U32, "used_starts"),
    *columns("fwd", lambda k: "fwd"), *columns("bwd", lambda k: "bwd"),
]

HIERARCHY = [
    *numbers("nodes", "rank_places", "fwd_start_places", "bwd_start_places"),
    ("fwd_places", U32, 5), ("bwd_places", U32, 5),
    *numbers("number", "queries"),
    ("ranks", U32, "rank_places"), ("fwd_starts", U32, "fwd_start_places"), ("bwd_starts", U32, "bwd_start_places"),
    *columns("fwd", lambda k: ("fwd_places", k)), *columns("bwd", lambda k: ("bwd_places", k)),
]

QUERY = [
    *numbers("sources", "targets", "path_places", "filled_with", "number", "length"),
    ("weight", U64, 1),
    ("source_node", U32, "sources"), ("source_offset", U64, "sources"),
    ("target_node", U32, "targets"), ("target_offset", U64, "targets"),
    ("walk", U32, "length"),
]


def how_many(count, record):
    if isinstance(count, tuple):
        name, index = count
        return record[name][index]
    return record[count] if isinstance(count, str) else count


def encode(layout, record):
    parts = []
    for name, width, count in layout:
        values = [record[name]] if count == 1 else record[name]
        assert len(values) == how_many(count, record), name
        parts.append(struct.pack(f"<{len(values)}{width}", *values))
    return b"".join(parts)


def decode(layout, data, at):
    """The record at a byte, and the byte after it."""
    record = {}
    for name, width, count in layout:
        form = f"<{how_many(count, record)}{width}"
        values = struct.unpack_from(form, data, at)
        at += struct.calcsize(form)
        record[name] = values[0] if count == 1 else list(values)
    return record, at
