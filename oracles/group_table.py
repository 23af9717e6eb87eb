"""Lines of the table of calls: what is expected of an aggregate or a join, and the fields, the operations and the rows."""
import random
from fractions import Fraction
from math import floor

from table_cells import LIMIT, MILLION, NULL, rounded, spelled


def quartile(numbers, quarters):
    ordered = sorted(numbers)
    place = Fraction((len(ordered) - 1) * quarters, 4)
    low = floor(place)
    high = min(low + 1, len(ordered) - 1)
    return rounded(ordered[low] + (place - low) * (ordered[high] - ordered[low]))


def given(op, cells):
    numbers = [cell[1] for cell in cells if cell[0] == "n"]
    counts = {
        0: len(cells),
        1: sum(cell != NULL for cell in cells),
        2: sum(cell == NULL for cell in cells),
        3: len(set(cells)),
    }
    if op in counts:
        return ("n", counts[op] * MILLION)
    if op == 4:
        total = sum(numbers)
        if abs(total) > LIMIT:
            raise OverflowError
        return ("n", total)
    if op > 11 or not numbers:
        return NULL
    if op in (5, 6):
        return ("n", rounded(Fraction(sum(numbers), len(numbers))))
    if op == 7:
        return ("n", min(numbers))
    if op == 8:
        return ("n", max(numbers))
    return ("n", quartile(numbers, {9: 2, 10: 1, 11: 3}[op]))


def read(row, name):
    return ("n", row[0] * MILLION) if name == "_vgsid_" else row[1].get(name, NULL)


def answer(kind, fields, ops, rows):
    groups = {}
    for row in rows:
        groups.setdefault(tuple(read(row, field) for field in fields), []).append(row)
    out = []
    try:
        told = {
            key: [(name, given(op, [read(row, field) if field else NULL for row in group])) for op, field, name in ops]
            for key, group in groups.items()
        }
    except OverflowError:
        return "overflow"
    if kind == "join":
        for row in rows:
            cells = dict(row[1])
            cells.update(told[tuple(read(row, field) for field in fields)])
            out.append((row[0], cells))
    else:
        for key, group in groups.items():
            cells = dict(zip(fields, key))
            cells.update(told[key])
            out.append((group[0][0], cells))
    return "".join(
        "|".join([str(i)] + [f"{name}={spelled(cells[name])}" for name in sorted(cells, key=str.encode)]) + ";" for i, cells in out
    )


LINES = []


def line(kind, fields, ops, rows):
    words = [
        answer(kind, fields, ops, rows),
        kind,
        ",".join(fields),
        ",".join(f"{op}:{field or '-'}:{name}" for op, field, name in ops),
        ";".join("." + "|".join(f"{name}={spelled(cell)}" for name, cell in row[1].items()) for row in rows),
    ]
    LINES.append("\t".join(words))


def table():
    chance = random.Random(7)
    kinds = [
        NULL, ("t",), ("f",), ("n", 0), ("n", MILLION), ("n", -MILLION), ("n", 1), ("n", 2), ("n", -3), ("n", 1500000),
        ("n", LIMIT), ("n", -LIMIT), ("n", 9 * 10**20), ("s", "A"), ("s", "b"), ("s", ""), ("p", 0, MILLION), ("p", 0, 2), ("p", -5, 2),
    ]  # fmt: skip
    all_ops = [(op, "v", f"o{op}") for op in range(20)]
    numbers = [("n", k * MILLION) for k in (1, 2, 4, 10)]
    for kind in ("aggregate", "join"):
        line(kind, [], all_ops, [])
        for count in range(8):
            for _ in range(6):
                cells = [chance.choice(numbers + kinds[3:10]) for _ in range(count)]
                line(kind, [], all_ops, [(i + 1, {"v": cell}) for i, cell in enumerate(cells)])
        line(kind, [], all_ops, [(i + 1, {"v": cell}) for i, cell in enumerate(numbers)])
        for cell in kinds:
            line(kind, [], all_ops, [(1, {"v": cell})])
        for op in range(20):
            line(kind, ["a"], [(op, None, "o")], [(1, {"a": ("s", "A")}), (2, {"a": NULL}), (3, {})])
        line(kind, ["_vgsid_"], [(4, "_vgsid_", "o")], [(1, {"a": NULL}), (2, {"_vgsid_": ("t",)})])
        line(kind, ["a"], [(4, "b", "b"), (0, None, "a")], [(1, {"a": ("s", "A"), "b": ("n", 5)}), (2, {"a": ("s", "B"), "b": ("n", 7)})])
        large = ("n", 9 * 10**20)
        line(kind, [], [(4, "v", "o")], [(1, {"v": large}), (2, {"v": large})])
        line(kind, [], [(4, "v", "o"), (5, "v", "m")], [(1, {"v": large}), (2, {"v": large}), (3, {"v": ("n", -9 * 10**20)})])
        line(kind, [], [(5, "v", "m")], [(1, {"v": large}), (2, {"v": large})])
        line(kind, [], [(4, "w", "o")], [(1, {"v": large}), (2, {"v": large})])
        for count in range(1, 30):
            for _ in range(12):
                rows = []
                for i in range(count):
                    cells = {name: chance.choice(kinds) for name in ("a", "b", "v") if chance.random() < 0.8}
                    rows.append((i + 1, cells))
                fields = chance.choice([["a"], ["a", "b"], ["b", "a"], [], ["b", "missing"]])
                ops = chance.sample([op for op in all_ops if op[0] != 4], 4) + ([all_ops[4]] if chance.random() < 0.3 else [])
                line(kind, fields, ops, rows)


def lines():
    table()
    return LINES
