"""Lines of the table of calls: what is expected of stacks, and the offset, the fields of the partitions, those of the order, the names and
the rows.
"""
import random
from fractions import Fraction

from table_cells import LIMIT, MILLION, NULL, in_range, rounded, spelled


def key_of(index):
    return (index // 2 + 1, index % 2)


def read(row, name):
    return ("n", row[0][0] * MILLION) if name == "_vgsid_" else row[1].get(name, NULL)


def rank(cell):
    kind = "_ft".find(cell[0])
    if kind >= 0:
        return (kind,)
    if cell[0] == "n":
        return (3, cell[1])
    if cell[0] == "s":
        return (4, cell[1].encode())
    return (5, cell[1], cell[2])


def in_order(rows, sort):
    ordered = sorted(rows, key=lambda row: row[0])
    for field, descending in reversed(sort):
        ordered.sort(key=lambda row: rank(read(row, field)), reverse=descending)
    return ordered


def stack_spans(offset, field, partition, greatest):
    """The spans of an ordered partition, as pairs of cells."""
    numbers = [read(row, field)[1] if read(row, field)[0] == "n" else None for row in partition]
    whole = sum(abs(v) for v in numbers if v is not None)
    spans = []
    for i, v in enumerate(numbers):
        if v is None:
            spans.append((NULL, NULL))
            continue
        earlier = [w for w in numbers[:i] if w is not None]
        if offset == "zero":
            start = sum(w for w in earlier if (w < 0) == (v < 0))
            pair = (in_range(start), in_range(start + v))
        elif offset == "normalize":
            in_range(whole)
            start = sum(abs(w) for w in earlier)
            if whole == 0:
                spans.append((NULL, NULL))
                continue
            pair = (rounded(Fraction(start * MILLION, whole)), rounded(Fraction((start + abs(v)) * MILLION, whole)))
        else:
            start = rounded(Fraction(greatest - whole, 2)) + sum(abs(w) for w in earlier)
            pair = (in_range(start), in_range(start + abs(v)))
        spans.append((("n", pair[0]), ("n", pair[1])))
    return spans


def answer(offset, groupby, sort, field, outs, rows):
    partitions = {}
    for row in rows:
        partitions.setdefault(tuple(read(row, name) for name in groupby), []).append(row)
    wholes = [sum(abs(read(row, field)[1]) for row in partition if read(row, field)[0] == "n") for partition in partitions.values()]
    told = {}
    try:
        for partition in partitions.values():
            ordered = in_order(partition, sort)
            for row, span in zip(ordered, stack_spans(offset, field, ordered, max(wholes))):
                told[row[0]] = span
    except OverflowError:
        return "overflow"
    out = []
    for row in rows:
        cells = dict(row[1])
        cells[outs[0]], cells[outs[1]] = told[row[0]]
        out.append((row[0], cells))
    return "".join(
        "|".join([f"{key[0]}{'ab'[key[1]]}"] + [f"{name}={spelled(cells[name])}" for name in sorted(cells, key=str.encode)]) + ";"
        for key, cells in out
    )


LINES = []


def line(offset, groupby, sort, field, outs, cells):
    rows = [(key_of(i), own) for i, own in enumerate(cells)]
    words = [
        answer(offset, groupby, sort, field, outs, rows),
        "stack",
        offset,
        ",".join(groupby),
        ",".join(("-" if descending else "") + name for name, descending in sort),
        ":".join([field, *outs]),
        ";".join("." + "|".join(f"{name}={spelled(cell)}" for name, cell in own.items()) for own in cells),
    ]
    LINES.append("\t".join(words))


def units(*numbers):
    return [{"v": ("n", n * MILLION)} for n in numbers]


def table():
    chance = random.Random(11)
    kinds = [
        NULL, ("t",), ("f",), ("n", 0), ("n", MILLION), ("n", -MILLION), ("n", 1), ("n", 2), ("n", -3), ("n", 1500000),
        ("s", "A"), ("s", "b"), ("s", ""), ("p", 0, MILLION), ("p", 0, 2), ("p", -5, 2),
    ]  # fmt: skip
    values = kinds[:10] + [("n", k * MILLION) for k in (2, -2, 3, -7, 10)] * 2 + [("s", "7")]
    large = [("n", LIMIT), ("n", -LIMIT), ("n", 6 * 10**20), ("n", -6 * 10**20), ("n", 4 * 10**20), ("n", 0), ("n", 1)]
    outs = ["s", "e"]
    for offset in ("zero", "normalize", "center"):
        line(offset, [], [], "v", outs, [])
        line(offset, ["a"], [], "v", outs, [{"a": ("s", c), "v": ("n", n * MILLION)} for c, n in (("A", 3), ("A", 1), ("B", 2))])
        line(offset, [], [("c", True)], "b", outs, [{"b": ("n", n * MILLION), "c": ("s", c)} for n, c in ((3, "u"), (-2, "v"), (1, "w"))])
        line(offset, [], [("c", True)], "b", outs, [{"b": ("n", 0), "c": ("s", c)} for c in "uvw"])
        line(offset, [], [], "v", outs, units(3, -2, 1, -4, 0, -1, 0, 5))
        line(offset, [], [("v", False)], "v", outs, units(3, -2, 1, -4, 0, -1, 0, 5))
        line(offset, [], [("v", True)], "v", outs, units(3, 3, 3, -2, -2, 3))
        line(offset, [], [], "v", ["x", "x"], units(1, 2))
        line(offset, ["v"], [], "v", ["v", "v"], units(1, 2, 1))
        line(offset, ["v"], [("v", True)], "v", ["v", "e"], units(1, 2, 1))
        line(offset, [], [("_vgsid_", True)], "v", outs, units(1, 2, 3, 4, 5))
        line(offset, ["_vgsid_"], [], "_vgsid_", ["_vgsid_", "e"], units(1, 2, 3))
        for cell in kinds:
            line(offset, [], [], "v", outs, [{"v": cell}])
            line(offset, [], [("v", False)], "v", outs, [{"v": ("n", MILLION)}, {"v": cell}, {}, {"v": cell}])
        for _ in range(60):
            line(offset, chance.choice([[], ["a"]]), [], "v", outs,
                 [{"v": chance.choice(large), "a": chance.choice(kinds[:2])} for _ in range(chance.randrange(1, 5))])  # fmt: skip
        for count in range(1, 30):
            for _ in range(9):
                cells = []
                for _ in range(count):
                    own = {name: chance.choice(kinds) for name in ("a", "b") if chance.random() < 0.8}
                    if chance.random() < 0.9:
                        own["v"] = chance.choice(values)
                    cells.append(own)
                groupby = chance.choice([["a"], ["a", "b"], ["b"], [], [], ["b", "missing"]])
                names = chance.sample(["a", "b", "v", "missing"], chance.randrange(0, 4))
                line(offset, groupby, [(name, chance.random() < 0.5) for name in names], "v", outs, cells)


def lines():
    table()
    return LINES
