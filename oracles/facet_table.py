"""Lines of the table of calls: what is expected of facets, and the fields, the order, the way of the copies and the lists of rows.

The cells of a field stand by its entry of the order, read in the first row that has the cell, ties ascending, and by their first rows
where it has no entry. The copies are the cells that rows have in all fields, by their first rows, and where there is an order by the place
of the cell of the first field, then of the next; crossed, every choice of a cell of each field, the first field outermost.
"""
import random
from functools import cmp_to_key
from itertools import product

from table_cells import LIMIT, MILLION, NULL, spelled


def read(row, name):
    return ("n", row[0] * MILLION) if name == "_vgsid_" else row[1].get(name, NULL)


def kind_of(cell):
    return ["_", "f", "t", "n", "s", "p"].index(cell[0])


def compared(a, b):
    """Negative, 0 or positive: null, false, true, numbers, texts by their bytes, pairs by their first number and then their second."""
    if kind_of(a) != kind_of(b):
        return kind_of(a) - kind_of(b)
    first = (a[1].encode(),) if a[0] == "s" else a[1:]
    second = (b[1].encode(),) if b[0] == "s" else b[1:]
    return (first > second) - (first < second)


def by_first_rows(cells):
    seen = []
    for cell in cells:
        if cell not in seen:
            seen.append(cell)
    return seen


def cells_of_field(rows, field, entry):
    found = by_first_rows([read(row, field) for row in rows])
    if entry is None:
        return found
    name, descending = entry
    beside = {cell: read(next(row for row in rows if read(row, field) == cell), name) for cell in found}

    def order(a, b):
        told = compared(beside[a], beside[b])
        return (-told if descending else told) or compared(a, b)

    return sorted(found, key=cmp_to_key(order))


def cells_of_copies(rows, fields, sort, crossed, cells):
    if crossed:
        return [list(choice) for choice in product(*cells)]
    found = by_first_rows([[read(row, field) for field in fields] for row in rows])
    if sort is None:
        return found
    return sorted(found, key=lambda key: [own.index(cell) for own, cell in zip(cells, key)])


def said(lists):
    return "".join("".join(spelled(cell) + "," for cell in cells) + ";" for cells in lists) + "#"


def answer(fields, sort, crossed, lists):
    rows = [row for rows in lists for row in rows]
    entries = sort or []
    cells = [cells_of_field(rows, field, entries[i] if i < len(entries) else None) for i, field in enumerate(fields)]
    copies = cells_of_copies(rows, fields, sort, crossed, cells)
    told = said(cells) + said(copies)
    for rows in lists:
        for key in copies:
            told += "".join(f"{row[0]}," for row in rows if [read(row, field) for field in fields] == key) + ";"
        told += "#"
    return told


LINES = []


def line(fields, sort, crossed, lists):
    words = [
        answer(fields, sort, crossed, lists),
        "facet",
        ",".join(fields),
        "-" if sort is None else ",".join(("-" if descending else "") + name for name, descending in sort),
        "crossed" if crossed else "found",
        "!".join(";".join("." + "|".join(f"{name}={spelled(cell)}" for name, cell in row[1].items()) for row in rows) for rows in lists),
    ]
    LINES.append("\t".join(words))


def rows_with(*cells):
    """Rows with these cells, numbered from 1 in their list."""
    return [(i + 1, row) for i, row in enumerate(cells)]


def anew(rows):
    return rows_with(*[row[1] for row in rows])


def table():
    chance = random.Random(11)
    text = lambda word: ("s", word)
    number = lambda value: ("n", value * MILLION)
    four = rows_with(
        {"a": text("y"), "b": text("p"), "v": number(5)},
        {"a": text("x"), "b": text("q"), "v": number(7)},
        {"a": text("y"), "b": text("q"), "v": number(1)},
        {"a": text("z"), "b": text("p"), "v": number(5)},
    )
    sorts = [
        None, [], [("v", True)], [("v", False)], [("a", True)], [("a", False)], [("b", True)], [("b", False)], [("_vgsid_", True)],
        [("v", True), ("b", True)], [("v", False), ("v", True)], [("missing", False)], [("missing", True)], [("missing", True), ("v", False)],
        [("v", True), ("a", False), ("b", False)], [("b", True), ("b", False), ("v", True), ("a", True)],
    ]  # fmt: skip
    choices = [[], ["a"], ["b"], ["a", "b"], ["b", "a"], ["a", "b", "v"], ["a", "a"], ["missing"], ["_vgsid_"], ["v", "missing", "a"]]
    for crossed in (False, True):
        for fields in choices:
            for sort in (sorts[0], sorts[1], sorts[2], sorts[9], sorts[15]):
                line(fields, sort, crossed, [four])
        for fields in ([], ["a"], ["a", "b"]):
            line(fields, None, crossed, [[]])
            line(fields, [("v", True)], crossed, [[], []])
            line(fields, [], crossed, [[], four, []])
            line(fields, None, crossed, [anew(four[2:]), four[:2]])
            line(fields, [("v", True)], crossed, [anew(four[2:]), four, four[:2]])
        # the first row of a list counts before the rows of the next
        line(["a"], [("v", False)], crossed, [rows_with({"a": text("x"), "v": number(9)}), rows_with({"a": text("x"), "v": number(1)}, {"a": text("y"), "v": number(5)})])
    kinds = [
        NULL, ("f",), ("t",), ("n", 0), number(1), number(-1), ("n", 1), ("n", LIMIT), ("n", -LIMIT), number(10), number(2), text(""), text("A"),
        text("b"), text("B"), text("bb"), text("\u00e9"), text("\U0001f600"), text("\uffee"), ("p", 0, MILLION), ("p", 0, 2), ("p", -5, 2), ("p", 0, -1),
    ]  # fmt: skip
    # every kind of cell, as the cells of a field and beside them
    everything = rows_with(*[{"a": cell, "b": NULL, "v": kinds[-1 - i]} for i, cell in enumerate(kinds)])
    for entry in ("a", "b", "v", "_vgsid_", "missing"):
        for descending in (False, True):
            line(["a"], [(entry, descending)], False, [everything, anew(everything[::-2])])
    for count in range(1, 13):
        for _ in range(16):
            few = chance.sample(kinds, chance.choice([2, 3, 4, 8]))
            lists = [
                rows_with(*[{name: chance.choice(few) for name in ("a", "b", "v") if chance.random() < 0.85} for _ in range(size)])
                for size in [count, chance.randrange(4)][: chance.choice([1, 1, 2])]
            ]
            fields = chance.choice(choices[1:7])
            line(fields, chance.choice(sorts), chance.random() < 0.4, lists)


def lines():
    table()
    return LINES
