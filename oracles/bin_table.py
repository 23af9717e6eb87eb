"""Lines of the table of calls: what is expected of the extent and of the bins of a field, the bins that are asked for, and the rows."""
import random
from fractions import Fraction
from math import ceil, floor

from table_cells import LIMIT, MILLION, NULL, decimal, in_range, spelled


def read(row, name):
    return ("n", row[0] * MILLION) if name == "_vgsid_" else row[1].get(name, NULL)


def least_step(span, most):
    k = 0
    while True:
        for factor in (1, 2, 5):
            if Fraction(span, most) <= factor * 10**k:
                return factor * 10**k
        k += 1


def bins(numbers, extent, step, most):
    low, high = (min(extent), max(extent)) if extent else (min(numbers), max(numbers))
    span = high - low or abs(low) or MILLION
    step = in_range(step or least_step(span, most))
    start = in_range(floor(Fraction(low, step)) * step)
    stop = in_range(max(ceil(Fraction(high, step)) * step, start + step))
    return start, step, stop


def bin_of(v, found):
    if v[0] != "n" or not found:
        return NULL, NULL
    start, step, stop = found
    if v[1] < start or v[1] > stop:
        return NULL, NULL
    count = Fraction(stop - start, step)
    assert count.denominator == 1
    at = min(floor(Fraction(v[1] - start, step)), count - 1)
    return ("n", int(start + at * step)), ("n", int(start + (at + 1) * step))


def answer(field, extent, step, most, out, out_end, rows):
    numbers = [read(row, field)[1] for row in rows if read(row, field)[0] == "n"]
    told = f"{decimal(min(numbers))}~{decimal(max(numbers))} " if numbers else "- "
    try:
        found = bins(numbers, extent, step, most) if numbers else None
    except OverflowError:
        return told + "overflow"
    for row in rows:
        start, end = bin_of(read(row, field), found)
        cells = dict(row[1])
        cells[out] = start
        cells[out_end] = end
        told += "|".join([str(row[0])] + [f"{name}={spelled(cells[name])}" for name in sorted(cells, key=str.encode)]) + ";"
    return told


LINES = []


def line(cells, extent=None, step=None, most=10, field="v", out="a", out_end="b", more=None):
    rows = [(i + 1, {"v": cell} if cell else {}) for i, cell in enumerate(cells)]
    for row, other in zip(rows, more or []):
        row[1].update(other)
    asked = [
        field,
        f"{decimal(extent[0])}~{decimal(extent[1])}" if extent else "-",
        decimal(step) if step else "-",
        str(most),
        out,
        out_end,
    ]
    words = [
        answer(field, extent, step, most, out, out_end, rows),
        "bin",
        " ".join(asked),
        ";".join("." + "|".join(f"{name}={spelled(cell)}" for name, cell in row[1].items()) for row in rows),
    ]
    LINES.append("\t".join(words))


def numbers(*values):
    return [("n", round(value * MILLION)) for value in values]


def table():
    chance = random.Random(11)
    line(numbers(0, 3, 10))
    line([])
    line([NULL, ("t",), ("f",), ("s", "A"), ("p", 0, MILLION), None])
    line([NULL, ("t",), ("f",), ("s", "3"), ("p", 0, MILLION), None] + numbers(0, 3, 10, -2.5))
    line([NULL, ("s", "A")], extent=(0, 10 * MILLION))
    line([NULL, ("s", "A")], extent=(-LIMIT, LIMIT), step=LIMIT, most=1)
    for value in (0, 1, -1, 7, -7, 10, 0.000001, -0.000001, 12.5, 10**15, -(10**15), 999999999999999.999999):
        for most in (1, 2, 6, 10, 100, 2**32 - 1):
            line(numbers(value), most=most)
            line(numbers(value, value), most=most, step=MILLION)
        line(numbers(value), step=LIMIT)
        line(numbers(value), step=7)
    for extent in ((0, 10), (10, 0), (2, 7), (7, 2), (5, 5), (-3, 4), (3, 3.5)):
        ends = tuple(round(end * MILLION) for end in extent)
        line(numbers(0, 1, 2, 3, 5, 7, 8, 10, 11, -1, 2.999999, 7.000001), extent=ends)
        line(numbers(0, 1, 2, 3, 5, 7, 8, 10, 11, -1, 2.999999, 7.000001), extent=ends, most=3)
        line(numbers(0, 1, 2, 3, 5, 7, 8, 10, 11, -1, 2.999999, 7.000001), extent=ends, step=3 * MILLION)
    for low, high in ((-LIMIT, LIMIT), (LIMIT, LIMIT), (-LIMIT, -LIMIT), (0, LIMIT), (-LIMIT, 0), (LIMIT - 1, LIMIT), (-LIMIT, 1 - LIMIT)):
        for most in (1, 2, 3, 10, 1000):
            line([("n", low), ("n", high)], most=most)
            line([("n", low), ("n", 0), ("n", high)], extent=(high, low), most=most)
        for step in (1, 2, 3, MILLION, 10**20, 3 * 10**20, 6 * 10**20, LIMIT - 1, LIMIT):
            line([("n", low), ("n", high)], step=step)
            line(numbers(1, 2), extent=(low, high), step=step)
    line(numbers(0, 3, 10), out="a", out_end="a")
    line(numbers(0, 3, 10), out="v", out_end="v")
    line(numbers(0, 3, 10), out="v", out_end="b")
    line(numbers(0, 3, 10), out="_vgsid_", out_end="b")
    line(numbers(0, 3, 10), field="_vgsid_")
    line(numbers(0, 3, 10), field="w")
    line(numbers(0, 3), more=[{"a": ("t",)}, {"b": NULL, "c": ("s", "x")}])
    for _ in range(900):
        size = 10 ** chance.randint(0, 21)
        cells = [("n", chance.randint(-size, size)) for _ in range(chance.randint(1, 6))]
        if chance.random() < 0.3:
            cells.append(chance.choice([NULL, ("t",), ("s", "A"), ("p", 1, 2), None]))
        ends = (chance.randint(-size, size), chance.randint(-size, size)) if chance.random() < 0.3 else None
        width = chance.randint(1, size) if chance.random() < 0.3 else None
        line(cells, extent=ends, step=width, most=chance.choice([1, 2, 3, 5, 6, 10, 20, 1000]))


def lines():
    table()
    return LINES
