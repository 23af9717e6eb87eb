"""Lines of the table of calls: the places and the size that are expected, and the tree of boxes. Lines that begin with the word titles
have the titles of grids among the places, and the width of each.
"""
import random
from fractions import Fraction as F

LIMIT = F(10) ** 15
random.seed(20)


def leaf(left=0, top=0, width=0, height=0, right=0, bottom=0):
    return ("leaf", tuple(F(n) for n in (left, top, width, height, right, bottom)))


def grid(columns, spacing, title, *cells):
    return ("grid", columns, F(spacing), title, list(cells))


# A box (left, top, width, height, right, bottom), and what stands in it, from its plot's corner: plots and titles, each with its width.
# All sums are exact; since no number is below zero, a sum that is cut at each step is the exact sum cut at the end.
def measured(t):
    if t[0] == "leaf":
        return t[1], [("plot", F(0), F(0), t[1][2])]
    _, columns, spacing, title, cells = t
    boxes = [measured(cell) for cell in cells]
    at = {(i // columns, i % columns): box for i, box in enumerate(boxes)}
    rows = sorted({r for r, _ in at})
    cols = sorted({c for _, c in at})
    xs, ys, x, y = {}, {}, F(0), F(23 if title else 0)
    for c in cols:
        here = [b for (r, k), (b, _) in at.items() if k == c]
        x += spacing if c else 0
        xs[c] = x + max(b[0] for b in here)
        x = xs[c] + max(b[2] + b[4] for b in here)
    for r in rows:
        here = [b for (k, c), (b, _) in at.items() if k == r]
        y += spacing if r else 0
        ys[r] = y + max(b[1] for b in here)
        y = ys[r] + max(b[3] + b[5] for b in here)
    places = [("title", F(0), F(0), x)] if title else []
    for i, (_, inner) in enumerate(boxes):
        places += [(kind, xs[i % columns] + px, ys[i // columns] + py, width) for kind, px, py, width in inner]
    return (F(0), F(0), x, y, F(0), F(0)), places


def decimal(n):
    n = min(n, LIMIT)
    assert (n * 10 ** 6).denominator == 1 and n >= 0
    whole, rest = divmod(int(n * 10 ** 6), 10 ** 6)
    return str(whole) + ("." + str(rest).rjust(6, "0") if rest else "").rstrip("0") if rest else str(whole)


def spelled(t):
    if t[0] == "leaf":
        return ",".join(decimal(n) for n in t[1])
    _, columns, spacing, title, cells = t
    inner = "".join(spelled(cell) + " " for cell in cells)
    return f"( {inner}){columns},{decimal(spacing)},{'title' if title else 'plain'}"


def line(t):
    (left, top, width, height, right, bottom), places = measured(t)
    words = [decimal(n) for kind, x, y, _ in places if kind == "plot" for n in (left + x, top + y)]
    words += ["|", decimal(left + width + right), decimal(top + height + bottom)]
    return " ".join(words) + " \tlayout\t" + spelled(t)


def line_with_titles(t):
    (left, top, width, height, right, bottom), places = measured(t)
    words = ["titles"] + [decimal(n) for _, x, y, wide in places for n in (left + x, top + y, wide)]
    words += ["|", decimal(left + width + right), decimal(top + height + bottom)]
    return " ".join(words) + " \ttitles\t" + spelled(t)


def any_number():
    return random.choice([F(0), F(random.randint(0, 50)), F(random.randint(0, 10 ** 8), 10 ** 6), F(random.randint(1, 300))])


def any_leaf():
    return leaf(*(any_number() for _ in range(6)))


def any_tree(depth):
    if depth == 0 or random.random() < 0.3:
        return any_leaf()
    cells = [any_tree(depth - 1) for _ in range(random.choice([0, 1, 1, 2, 3, 4, 5, 7]))]
    return grid(random.choice([1, 1, 2, 2, 3, 4, 9]), random.choice([0, 20, 20, 5, F(1, 10 ** 6)]), random.random() < 0.4, *cells)


BIG = 10 ** 11
plot = leaf(0, 0, 50, 40, 0, 0)
huge = leaf(BIG, BIG, BIG, BIG, BIG, BIG)
LINES = [
    line(grid(2, 20, False, leaf(10, 0, 50, 40), leaf(20, 0, 30, 40, 5))),
    line(plot),
    line(leaf(1, 2, 3, 4, 5, 6)),
    line(grid(1, 20, False)),
    line(grid(1, 20, True)),
    line(grid(3, 20, True, leaf(1, 2, 3, 4, 5, 6))),
    line(grid(1, 20, False, grid(1, 20, True), plot)),
    line(grid(2, 20, True, grid(2, 20, True, plot, plot), plot, grid(1, 0, False))),
    line(grid(7, 20, False, plot, leaf(10, 0, 50, 40))),
    line(grid(2 ** 64 - 1, 20, False, plot, leaf(10, 0, 50, 40))),
    line(grid(1, 20, False, plot, leaf(10, 5, 50, 40, 0, 7), plot)),
    line(grid(2, 20, False, plot, leaf(10, 5, 50, 40, 0, 7), leaf(3, 0, 70, 10, 8, 9))),
    line(grid(2, 20, False, leaf(30, 0, 1, 1), plot, grid(2, 5, False, leaf(4, 4, 4, 4), plot), plot)),
    line(grid(1, 0, False, *[grid(1, 0, False)] * 5)),
    line(grid(3, 20, False, *[grid(1, 0, False)] * 7)),
    line(grid(1, 20, False, grid(1, 20, False, grid(1, 20, True, grid(1, 20, True, leaf(1, 2, 3, 4, 5, 6)))))),
    line(huge),
    line(grid(2, BIG, True, huge, huge, huge)),
    line(grid(20000, BIG, False, *[grid(1, 0, False)] * 9999, plot)),
    line(grid(20000, BIG, False, *[grid(1, 0, False)] * 10001, plot)),
    line(grid(2, 20, False, grid(20000, BIG, True, *[grid(1, 0, False)] * 10001, plot), leaf(1, 2, 3, 4, 5, 6))),
    line(grid(500, 20, False, *[huge] * 500)),
]
deep = plot
for _ in range(200):
    deep = grid(1, 20, True, deep)
LINES.append(line(deep))
LINES += [line(any_tree(random.randint(1, 4))) for _ in range(1000)]
headed = leaf(0, 15, 100, 20)
LINES += [
    line_with_titles(t)
    for t in (
        plot,
        leaf(1, 2, 3, 4, 5, 6),
        grid(1, 20, True),
        grid(1, 20, False),
        grid(2, 20, False, grid(2, 20, True, headed, headed), leaf(0, 0, 20, 200)),
        grid(2, 20, True, grid(2, 20, True, plot, plot), plot, grid(1, 0, True)),
        grid(1, 20, True, grid(1, 20, True, grid(1, 20, True, grid(1, 20, True, leaf(1, 2, 3, 4, 5, 6))))),
        grid(2, BIG, True, huge, huge, huge),
        deep,
    )
]
LINES += [line_with_titles(any_tree(random.randint(1, 4))) for _ in range(100)]
