"""Lines of the table of calls: what is expected of windows, and the operations, the fields of the partitions, those of the order, the frame
and the rows.
"""
import random

from group_table import given
from order_table import in_order, key_of, rank, read
from table_cells import MILLION, NULL, spelled

ROW_NUMBER, RANK, DENSE_RANK, LAG, LEAD, FIRST_VALUE, LAST_VALUE = range(12, 19)


def count(n):
    return ("n", n * MILLION)


def bounded(place, n):
    return max(0, min(n, place))


def frame_of(i, n, frame, peers):
    """The places of the frame of the row at a place, from one to behind the last."""
    before, after, widens = frame
    low = 0 if before is None else bounded(i + before, n)
    high = n if after is None else bounded(i + 1 + after, n)
    if low >= high:
        return (0, 0)
    if widens:
        low = peers.index(peers[low])
        high = n - peers[::-1].index(peers[high - 1])
    return (low, high)


def cell_for(op, param, i, partition, peers, frame, cells):
    low, high = frame_of(i, len(partition), frame, peers)
    if op == ROW_NUMBER:
        return count(i + 1)
    if op == RANK:
        return count(peers.index(peers[i]) + 1)
    if op == DENSE_RANK:
        return count(len(set(peers[: peers.index(peers[i])])) + 1)
    if op == LAG:
        return cells[i - param] if i >= param else NULL
    if op == LEAD:
        return cells[i + param] if i + param < len(cells) else NULL
    if op == FIRST_VALUE:
        return cells[low] if low < high else NULL
    if op == LAST_VALUE:
        return cells[high - 1] if low < high else NULL
    return given(op, cells[low:high])


def answer(ops, groupby, sort, frame, rows):
    partitions = {}
    for row in rows:
        partitions.setdefault(tuple(read(row, name) for name in groupby), []).append(row)
    told = {}
    try:
        for partition in partitions.values():
            ordered = in_order(partition, sort)
            peers = [tuple(rank(read(row, name)) for name, _ in sort) if sort else row[0] for row in ordered]
            for i, row in enumerate(ordered):
                told[row[0]] = [
                    (out, cell_for(op, param, i, ordered, peers, frame, [read(other, field) if field else NULL for other in ordered]))
                    for op, field, out, param in ops
                ]
    except OverflowError:
        return "overflow"
    said = []
    for key, own in rows:
        cells = dict(own)
        cells.update(told[key])
        said.append("|".join([f"{key[0]}{'ab'[key[1]]}"] + [f"{name}={spelled(cells[name])}" for name in sorted(cells, key=str.encode)]) + ";")
    return "".join(said)


LINES = []


def line(ops, groupby, sort, frame, cells):
    rows = [(key_of(i), own) for i, own in enumerate(cells)]
    before, after, widens = frame
    words = [
        answer(ops, groupby, sort, frame, rows),
        "window",
        ",".join(f"{op}:{field or '-'}:{out}:{param}" for op, field, out, param in ops),
        ",".join(groupby),
        ",".join(("-" if descending else "") + name for name, descending in sort),
        ",".join(["_" if before is None else str(before), "_" if after is None else str(after), "peers" if widens else "rows"]),
        ";".join("." + "|".join(f"{name}={spelled(cell)}" for name, cell in own.items()) for own in cells),
    ]
    LINES.append("\t".join(words))


def table():
    chance = random.Random(13)
    kinds = [
        NULL, ("t",), ("f",), ("n", 0), ("n", MILLION), ("n", -MILLION), ("n", 1), ("n", 2), ("n", -3), ("n", 1500000),
        ("n", 6 * 10**20), ("n", -6 * 10**20), ("s", "A"), ("s", "b"), ("s", ""), ("p", 0, MILLION), ("p", -5, 2),
    ]  # fmt: skip
    small = kinds[:10] + [("n", k * MILLION) for k in (2, -2, 3)] + [("s", "A")]
    every = [(op, "v", f"o{op}", 1) for op in range(20)]
    frames = [(None, 0), (None, None), (0, None), (-1, 1), (-2, 0), (1, 3), (-3, -1), (0, 0), (2, 1), (-1000, 0), (-2147483648, 2147483647)]
    ranks = [(12, "v", "number", 1), (13, "v", "rank", 1), (14, "v", "dense", 1), (4, "v", "sum", 1)]
    for widens in (True, False):
        line(ranks, [], [("v", False)], (None, 0, widens), [{"v": count(n)} for n in (3, 1, 3)])
    for before, after in frames:
        for widens in (True, False):
            frame = (before, after, widens)
            line(every, [], [], frame, [])
            line(every, [], [("v", False)], frame, [{"v": count(n)} for n in (3, 1, 2, 1, 3, 3)])
            line(every, [], [("v", True)], frame, [{"v": count(n)} for n in (3, 1, 2, 1, 3, 3)])
            line(every, [], [], frame, [{"v": count(n)} for n in (3, 1, 2)])
            line(every, ["a"], [("b", False)], frame, [{"a": ("s", c), "b": count(n), "v": count(n * n)} for c, n in
                                                       (("A", 2), ("B", 1), ("A", 1), ("A", 2), ("B", 5))])  # fmt: skip
            for _ in range(12):
                cells = []
                for _ in range(chance.randrange(1, 9)):
                    own = {name: chance.choice(small) for name in ("a", "b") if chance.random() < 0.8}
                    if chance.random() < 0.9:
                        own["v"] = chance.choice(small)
                    cells.append(own)
                groupby = chance.choice([[], ["a"], ["a", "b"]])
                sort = chance.choice([[], [("v", False)], [("b", True), ("v", False)], [("_vgsid_", True)]])
                line(every, groupby, sort, frame, cells)
    for param in (0, 1, 2, 7, 4294967295):
        shifts = [(LAG, "v", "before", param), (LEAD, "v", "behind", param), (LAG, None, "none", param)]
        line(shifts, [], [("v", True)], (None, 0, True), [{"v": count(n)} for n in (4, 9, 1, 7)])
    line([(4, "v", "v", 1), (12, None, "v", 1)], [], [], (None, 0, True), [{"v": count(1)}, {"v": count(2)}])
    line([(4, "_vgsid_", "_vgsid_", 1)], ["_vgsid_"], [], (None, None, True), [{}, {}, {}])
    for _ in range(40):
        cells = [{"v": chance.choice(kinds), "a": chance.choice(kinds[:2])} for _ in range(chance.randrange(1, 6))]
        line([(op, "v", f"o{op}", 1) for op in (4, 5, 7, 8, 9)], chance.choice([[], ["a"]]), [], (None, 0, True), cells)
    pairs = small + [("s", ""), ("p", 0, MILLION), ("p", -5, 2), ("p", 0, MILLION)]
    for _ in range(40):
        cells = [{"v": chance.choice(pairs), "a": chance.choice(pairs[-5:])} for _ in range(chance.randrange(2, 9))]
        sort = chance.choice([[], [("v", False)], [("a", True)]])
        line(every, chance.choice([[], ["a"]]), sort, (*chance.choice(frames), chance.random() < 0.5), cells)
    # totals out of range, of which only a sum's counts
    for op in (4, 5, 6):
        line([(op, "v", "o", 1)], [], [], (None, 0, True), [{"v": ("n", 9 * 10**20)}, {"v": ("n", 9 * 10**20)}])


def lines():
    table()
    return LINES
