#!/usr/bin/env python3
"""Marks over three rows with their items, computed apart. oracles/mark_cases.py makes cases of them.

Usage: oracles/mark_table.py, for the lines.

Each line is the items, a tab, and the type of the mark, its enter set, its update set and its sort between tabs. A set has channels with
blanks between them, a channel values with `|` between them, and a value members like `f:amount` with `,` between them. A sort has fields
with blanks between them, each with `-` before it where it falls. The plot is 200 by 80. A line of `group-` and a channel has the
number that a group encodes in it, one of `inner-` that of a group in an object whose own scale x is what count is in the chart.
"""
from fractions import Fraction as F
from math import floor, isqrt

from table_cells import LIMIT, MILLION, decimal

ROWS = [{"a": "A", "word": "left", "amount": F(28)}, {"a": "B", "word": "top", "amount": F(55)}, {"a": "C", "word": "square", "amount": "none"}]
WIDTH, HEIGHT = F(200), F(80)
MOST = 10**15

# what expressions give for a row
EXPRESSIONS = {
    "datum.amount>30": lambda row: row["amount"] != "none" and row["amount"] > 30,
    "datum.a=='A'": lambda row: row["a"] == "A",
    "datum.a=='B'": lambda row: row["a"] == "B",
    "datum.amount/56": lambda row: None if row["amount"] == "none" else near(row["amount"] / 56),
    "datum.a": lambda row: row["a"],
    "1000000000000000": lambda row: F(MOST),
    "-1000000000000000": lambda row: F(-MOST),
    "1000000000000000+1": lambda row: fits(F(MOST + 1)),
    "null": lambda row: None,
    "true": lambda row: True,
}

# labels that a format gives
LABELS = {("28", ".1f"): "28.0", ("55", ".1f"): "55.0", ("28", "%"): "2800.000000%", ("55", "%"): "5500.000000%", ("28", "%Y"): "1970",
          ("55", "%Y"): "1970", ("28", "d"): "28", ("55", "d"): "55", ("98.181818", ".1f"): "98.2", ("0", ".1f"): "0.0"}


def near(x):
    """A fraction rounded to millionths, the middle going upward."""
    return F(floor(x * MILLION + F(1, 2)), MILLION)


def fits(x):
    if abs(x) > MOST:
        raise OverflowError
    return x


def is_number(cell):
    return isinstance(cell, F)


class Linear:
    """0 to 55 over 200 pixels down to 0."""

    def place(self, cell, band):
        if not is_number(cell):
            return None
        return fits(fits(200 + near(cell * -200 / 55)) + (0 if band is None else 0))

    def text(self, cell):
        return None

    def share(self, band):
        return F(0)

    base = F(200)


class Bands:
    """Bands for A and B over 40 pixels, with a tenth between them and half of that outside."""

    def place(self, cell, band):
        if cell not in ("A", "B"):
            return None
        k = "AB".index(cell)
        space = 2 - F("0.1") + 2 * F("0.05")
        if band == F("0.5"):
            return near(40 * (F("0.05") + k + F("0.9") / 2) / space)
        return fits(near(40 * (F("0.05") + k) / space) + (0 if band is None else self.share(band)))

    def text(self, cell):
        return None

    def share(self, band):
        return fits(near(band * 18))

    base = F(0)


class Listed:
    """Cells and what stands for each."""

    base = None

    def __init__(self, pairs):
        self.pairs = pairs

    def place(self, cell, band):
        found = self.pairs.get(cell)
        return found if is_number(found) else None

    def text(self, cell):
        found = self.pairs.get(cell)
        return found if isinstance(found, str) else None

    def share(self, band):
        return F(0)


SCALES = {"x": Bands(), "y": Linear(), "color": Listed({"A": "red"}), "form": Listed({"A": "triangle-up", "B": "diamond", "C": "top"}),
          "count": Listed({"A": F(16), "B": F(-1), "C": "left"})}
LACKING = object()


def value(words):
    members = dict(word.split(":", 1) for word in words.split(","))
    if "null" in members:
        members["cell"] = None
    elif "n" in members:
        members["cell"] = F(members["n"])
    elif "t" in members:
        members["cell"] = members["t"]
    return members


def own_cell(members, row):
    """The cell of a value, and whether it has one."""
    if "g" in members:
        return True, EXPRESSIONS[members["g"]](row)
    if "f" in members:
        return True, row.get(members["f"])
    return "cell" in members, members.get("cell")


def the_value(channel, row):
    for words in channel.split("|"):
        members = value(words)
        if "if" not in members or EXPRESSIONS[members["if"]](row) is True:
            return members
    return None


def number(members, row, far):
    """The number of a value, None where it has none."""
    has, cell = own_cell(members, row)
    band = F(members["b"]) if "b" in members else None
    scale = SCALES.get(members.get("s"))
    if scale is None:
        n = cell if has and is_number(cell) else None
    elif far and scale.base is not None and "g" not in members and "f" not in members and has and cell is None:
        n = fits(scale.base + (0 if band is None else scale.share(band)))
    elif has:
        n = scale.place(cell, band)
    elif band is not None:
        n = scale.share(band)
    else:
        n = scale.place(None, None)
    if n is None:
        return None
    return fits(n + F(members.get("o", 0)))


def text(members, row):
    has, cell = own_cell(members, row)
    scale = SCALES.get(members.get("s"))
    if scale is not None:
        return scale.text(cell) if has or "b" not in members else None
    return cell if isinstance(cell, str) else None


def display(cell):
    if cell is None:
        return "null"
    if cell is True:
        return "true"
    return decimal(int(cell * MILLION)) if is_number(cell) else cell


def words(members, row):
    n = number(members, row, False)
    has, cell = own_cell(members, row)
    if n is not None:
        cell = n
    elif "s" in members:
        cell = text(members, row)
        has = cell is not None
    if not has and n is None:
        return None
    shown = display(cell)
    return LABELS[shown, members["F"]] if "F" in members and is_number(cell) else shown


class Channels:
    def __init__(self, sets, row):
        self.sets, self.row = sets, row

    def shown(self, name, read):
        """What a channel shows: the answer, LACKING, or None where it is absent."""
        members = the_value(self.sets[name], self.row) if name in self.sets else None
        if members is None:
            return None
        answer = read(members, self.row)
        return LACKING if answer is None else answer

    def number(self, name):
        return self.shown(name, lambda v, row: number(v, row, name in ("x2", "y2")))

    def text(self, name):
        return self.shown(name, text)

    def words(self, name):
        return self.shown(name, words)

    def place(self, near_end, middle):
        a, m = self.number(near_end), self.number(middle)
        found = a if a is not None else m
        return F(0) if found is None else found

    def span(self, near_end, far, middle, size):
        a, b, m, s = (self.number(n) for n in (near_end, far, middle, size))
        s = F(0) if s is None else s
        if a is not None and b is not None:
            return LACKING if LACKING in (a, b) else (min(a, b), fits(abs(a - b)))
        if a is not None:
            return LACKING if LACKING in (a, s) else (a, s)
        if m is not None:
            return LACKING if LACKING in (m, s) else (fits(m - near(s / 2)), s)
        if b is not None:
            return LACKING if LACKING in (b, s) else (fits(b - s), s)
        return LACKING if s is LACKING else (F(0), s)

    def ends(self, near_end, far, whole):
        a, b = self.number(near_end), self.number(far)
        if LACKING in (a, b):
            return LACKING
        if a is None:
            return (F(0), whole if b is None else b)
        return (a, a if b is None else b)


def moved(place, by):
    """A place moved, LACKING where it lacks."""
    return LACKING if place is LACKING else fits(place + by)


def spelled(numbers):
    return " ".join(decimal(int(n * MILLION)) for n in numbers)


def rect(c):
    x, y = c.span("x", "x2", "xc", "width"), c.span("y", "y2", "yc", "height")
    return None if LACKING in (x, y) else "rect " + spelled((x[0], y[0], x[1], y[1]))


def symbol(c):
    x, y = c.place("x", "xc"), c.place("y", "yc")
    size, form = c.number("size"), c.text("shape")
    size = F(30) if size is None else size
    if size is LACKING or size < 0:
        return None
    root = F(isqrt(int(size * MILLION) * MILLION), MILLION)
    r = near(root / 2)
    if form == "square":
        corner = moved(x, -r), moved(y, -r)
        return None if LACKING in corner else "rect " + spelled(corner + (root, root))
    if form == "diamond":
        left, right, above, below = moved(x, -r), moved(x, r), moved(y, -r), moved(y, r)
        if LACKING in (x, y):
            return None
        return f"path M {spelled((left, y))} L {spelled((x, above))} L {spelled((right, y))} L {spelled((x, below))} Z {spelled((r,))}"
    if form == "triangle-up":
        h = near(r * F("0.866025"))
        left, right, above, below = moved(x, -r), moved(x, r), moved(y, -h), moved(y, h)
        if LACKING in (x, y):
            return None
        return f"path M {spelled((x, above))} L {spelled((left, below))} L {spelled((right, below))} Z {spelled((r,))}"
    return None if LACKING in (x, y) else "circle " + spelled((x, y, r))


def rule(c):
    x, y = c.ends("x", "x2", WIDTH), c.ends("y", "y2", HEIGHT)
    return None if LACKING in (x, y) else "line " + spelled((x[0], y[0], x[1], y[1]))


def letters(c):
    x, y = c.place("x", "xc"), c.place("y", "yc")
    dx, dy, size = c.number("dx"), c.number("dy"), c.number("fontSize")
    align, baseline, said = c.text("align"), c.text("baseline"), c.words("text")
    if not is_number(size) or size.denominator != 1 or not 1 <= size <= 1000:
        size = F(11)
    below = {"top": size, "bottom": F(0), "alphabetic": F(0)}.get(baseline, near(size * F("0.3")))
    anchor = {"left": "start", "right": "end"}.get(align, "middle")
    across = LACKING if LACKING in (x, dx) else fits(x + (dx or 0))
    down = LACKING if LACKING in (y, dy) else fits(y + below + (dy or 0))
    if LACKING in (across, down, said):
        return None
    return f"words {spelled((across, down))} upright {anchor} {size} plain '{said or ''}'"


def stop(c, closed):
    """Where a path passes for a row, there and back; None at a gap."""
    x, y = c.place("x", "xc"), c.place("y", "yc")
    back_x, back_y = (c.number("x2"), c.number("y2")) if closed else (None, None)
    if LACKING in (x, y, back_x, back_y):
        return None
    return (x, y), (x if back_x is None else back_x, y if back_y is None else back_y)


def path(type_, sets, rows):
    """The one item of a line or an area, None where there is none."""
    closed = type_ == "area"
    runs, run = [], []
    for stopped in [stop(Channels(sets, row), closed) for _, row in rows] + [None]:
        if stopped is not None:
            run.append(stopped)
        elif run:
            runs.append(run)
            run = []
    steps = []
    for run in runs:
        steps += [("M" if i == 0 else "L") + " " + spelled(there) for i, (there, _) in enumerate(run)]
        if closed:
            steps += ["L " + spelled(back) for _, back in reversed(run)] + ["Z"]
    first = Channels(sets, rows[0][1])
    fill, stroke, width, opacity = first.text("fill"), first.text("stroke"), first.number("strokeWidth"), first.number("opacity")
    if not steps or LACKING in (fill, stroke):
        return None
    width = width if is_number(width) else F(LINE[type_])
    opacity = opacity if is_number(opacity) else F(1)
    return f"- path {' '.join(steps)} - {fill or '-'} {stroke or '-'} {spelled((width, opacity))}"


def rank(cell):
    """The place of a cell in the order of cells, of which rows have numbers and texts."""
    return (2, cell) if is_number(cell) else (3, cell.encode())


def in_order(rows, sort):
    """Rows by fields, ties by their keys."""
    for word in reversed(sort.split(" ") if sort else []):
        rows = sorted(rows, key=lambda row: rank(row[1][word.lstrip("-")]), reverse=word.startswith("-"))
    return rows


SHAPES = {"rect": rect, "symbol": symbol, "rule": rule, "text": letters, "group": lambda c: None}
LINE = {"rect": 1, "symbol": 2, "rule": 1, "text": 1, "line": 2, "area": 1}


def item(type_, sets, row_number, row):
    c = Channels(sets, row)
    shape = SHAPES[type_](c)
    fill, stroke, width, opacity = c.text("fill"), c.text("stroke"), c.number("strokeWidth"), c.number("opacity")
    if shape is None or LACKING in (fill, stroke, width, opacity):
        return None
    if type_ == "text":
        stroke, width = None, None
    key = str(row_number) if type_ in ("rect", "symbol") else "-"
    width = F(LINE[type_]) if width is None else width
    opacity = F(1) if opacity is None else opacity
    return f"{key} {shape} {fill or '-'} {stroke or '-'} {spelled((width, opacity))}"


def line(type_, enter, update="", sort=""):
    sets = {}
    for words in (enter, update):
        sets.update(word.split("=", 1) for word in words.split(" ") if word)
    rows = in_order(list(enumerate(ROWS, 1)), sort)
    try:
        if type_ in ("line", "area"):
            items = [path(type_, sets, rows)]
        else:
            items = [item(type_, sets, i, row) for i, row in rows]
        answer = "; ".join(i for i in items if i is not None)
    except OverflowError:
        answer = "overflow"
    return "\t".join((answer, type_, enter, update, sort))


NUMBERS = ("n:7.5", "f:amount", "s:y,f:amount", "s:x,f:a,b:0.5,o:-1", "if:datum.amount>30,n:3|if:datum.a=='A',n:4", "g:datum.amount/56")
TEXTS = ("t:blue", "f:a", "s:color,f:a", "s:form,f:a", "if:datum.amount>30,t:red|if:datum.a=='A',t:blue", "n:7")
FORMS = ("t:circle", "t:square", "t:triangle-up", "t:diamond", "t:cross", "n:3", "s:form,f:a", "if:datum.amount>30,t:square|t:diamond", "f:a", "f:word")
ALIGNS = ("t:left", "t:center", "t:right", "t:middle", "n:1", "s:count,f:a", "if:datum.amount>30,t:left|if:datum.a=='A',t:right", "f:a", "f:word")
BASELINES = ("t:top", "t:middle", "t:bottom", "t:alphabetic", "t:hanging", "n:1", "s:form,f:a", "if:datum.amount>30,t:top|t:bottom", "f:a", "f:word")
WORDS = ("t:word", "n:-0.5", "null:-", "f:amount", "f:other", "g:datum.a", "g:true", "s:y,f:amount", "s:count,f:a", "s:form,f:a", "s:x", "b:1",
         "s:x,b:0.5", "f:amount,o:2", "f:a,o:2", "f:amount,F:.1f", "f:amount,F:%Y", "f:amount,F:%", "s:y,f:amount,F:.1f", "t:a,F:d",
         "if:datum.amount>30,t:many|if:datum.a=='A',f:amount,F:d", "s:color,f:a")
LOOKS = {"fill": TEXTS, "stroke": TEXTS, "strokeWidth": NUMBERS, "opacity": NUMBERS}
PLACES = {name: NUMBERS for name in ("x", "y")}
TYPES = {
    "rect": ("x=n:1 y=n:2", PLACES | {n: NUMBERS for n in ("x2", "xc", "width", "y2", "yc", "height")}),
    "symbol": ("x=n:40 y=n:20", PLACES | {"xc": NUMBERS, "yc": NUMBERS, "size": NUMBERS + ("s:count,f:a",), "shape": FORMS}),
    "line": ("x=s:x,f:a,b:0.5 y=s:y,f:amount stroke=t:black", PLACES | {"xc": NUMBERS, "yc": NUMBERS}),
    "area": ("x=s:x,f:a,b:0.5 y=s:y,f:amount fill=t:blue", PLACES | {n: NUMBERS + ("s:y,null:-",) for n in ("x2", "xc", "y2", "yc")}),
    "rule": ("stroke=t:black", PLACES | {"x2": NUMBERS + ("s:y,null:-",), "y2": NUMBERS + ("s:y,null:-",)}),
    "text": ("x=n:40 y=n:20 text=f:a", PLACES | {"xc": NUMBERS, "yc": NUMBERS, "dx": NUMBERS, "dy": NUMBERS, "align": ALIGNS, "text": WORDS,
             "baseline": BASELINES, "fontSize": NUMBERS + ("n:1", "n:1000", "n:1001", "n:0", "n:-3", "n:20", "t:20", "s:count,f:a")}),
}
PLACED = ("x", "x2", "xc", "width", "y", "y2", "yc", "height", "size", "dx", "dy", "fontSize")
WORDED = ("shape", "text", "align", "baseline")
# a constant, a field, a scale, a test and what is out of range, for channels that a type of mark doesn't have
UNREAD = (("n:7.5", "t:top"), ("f:amount", "f:word"), ("s:y,f:amount", "s:form,f:a"), ("if:datum.a=='A',n:4|n:3", "if:datum.a=='A',t:left|t:square"),
          ("g:1000000000000000+1", "g:1000000000000000+1"))
OTHERS = [
    # rects
    ("rect", "x=s:x,f:a width=s:x,b:1 y=s:y,f:amount y2=s:y,n:0 fill=t:blue"),
    ("rect", "x=s:x,f:a width=s:x,b:1 y=s:y,f:amount y2=s:y,null:-"),
    ("rect", "x=n:1 y=n:2", "x=n:3"),
    ("rect", "fill=if:datum.amount>30,t:red|if:datum.a=='A',t:blue"),
    ("rect", "x=n:9 x2=n:4 xc=null:- width=null:- yc=n:10 height=n:5"),
    ("rect", "fill=s:color,f:a stroke=t:black strokeWidth=n:2.5 opacity=g:datum.amount/56"),
    ("rect", "xc=s:x,f:a,b:0.5,o:-1 x2=null:-"),
    ("rect", "x=n:0 fill=n:7"),
    ("rect", "fill=n:7 x=g:1000000000000000,o:1"),
    ("rect", "y=null:- xc=g:1000000000000000,o:1"),
    ("rect", "x=g:1000000000000000 x2=g:-1000000000000000"),
    ("rect", "size=g:1000000000000000+1 width=n:-3"),
    ("rect", "x=s:x,t:B,b:-55555555555555.555555"),
    ("rect", "x=s:x,t:B,b:-55555555555555.555556"),
    ("rect", "x=s:x,t:B,b:55555555555555.555555"),
    ("rect", "x=s:x,t:C,b:-55555555555555.555556"),
    ("rect", "x=s:y,n:55,b:1000000000000000,o:1"),
    ("rect", "x2=n:9 width=n:4", "x2=if:datum.a=='A',n:8"),
    # symbols
    ("symbol", "x=s:x,f:a,b:0.5 y=s:y,f:amount size=n:16 shape=s:form,f:a stroke=t:black fill=s:color,f:a"),
    ("symbol", "xc=n:9 yc=n:8 size=n:0"),
    ("symbol", "x=n:9 xc=null:- yc=null:- y=n:3 size=n:2 shape=t:square"),
    ("symbol", "x=null:- xc=n:9"),
    ("symbol", "xc=null:-"),
    ("symbol", "size=n:-0.000001"),
    ("symbol", "size=null:-"),
    ("symbol", "size=g:1000000000000000 shape=t:triangle-up"),
    ("symbol", "size=g:1000000000000000+1"),
    ("symbol", "x=g:1000000000000000 shape=t:circle"),
    ("symbol", "x=g:1000000000000000 shape=t:square"),
    ("symbol", "x=g:-1000000000000000 shape=t:square"),
    ("symbol", "x=g:-1000000000000000 y=null:- shape=t:square"),
    ("symbol", "x=g:-1000000000000000 size=null:- shape=t:square"),
    ("symbol", "y=g:1000000000000000 shape=t:diamond"),
    ("symbol", "y=g:-1000000000000000 shape=t:triangle-up"),
    ("symbol", "y=g:-1000000000000000 x=null:- shape=t:triangle-up"),
    ("symbol", "shape=t:square|t:circle", "size=n:9"),
    ("symbol", "fill=n:7 x=g:1000000000000000+1"),
    ("symbol", "x2=g:1000000000000000+1 width=null:- text=g:1000000000000000+1"),
    ("symbol", "x=s:x,b:0.5,o:3 y=s:y,n:55"),
    ("symbol", "x=if:datum.a=='A',n:10|if:datum.a=='B',n:12|null:- y=n:10 size=n:100"),
    # rules
    ("rule", ""),
    ("rule", "x=s:x,f:a,b:0.5"),
    ("rule", "y=s:y,f:amount y2=s:y,null:- x=n:10"),
    ("rule", "x=n:10 x2=n:5 y2=n:30"),
    ("rule", "x2=null:-"),
    ("rule", "y=null:- y2=n:3"),
    ("rule", "y2=null:- y=n:3"),
    ("rule", "xc=n:9 width=g:1000000000000000+1"),
    ("rule", "x=g:1000000000000000 x2=g:-1000000000000000"),
    ("rule", "y=null:- x2=g:1000000000000000,o:1"),
    ("rule", "x2=n:9 strokeWidth=n:3", "x2=if:datum.a=='A',n:8"),
    # lines and areas
    ("line", ""),
    ("line", "x=g:datum.amount/56 y=f:amount"),
    ("line", "x=f:amount y=n:3", "", "-amount"),
    ("line", "x=f:amount y=n:3 stroke=f:a opacity=f:amount strokeWidth=f:a", "", "-a"),
    ("line", "x=n:1 y=n:3 stroke=s:color,f:a", "", "-a"),
    ("line", "x=n:1 y=n:3 stroke=s:color,f:a"),
    ("line", "x=null:-"),
    ("line", "x=n:1 y2=g:1000000000000000+1"),
    ("line", "x=null:- y=g:1000000000000000,o:1"),
    ("line", "x=if:datum.a=='A',n:1|if:datum.a=='B',null:-|n:9"),
    ("line", "x=if:datum.a=='A',null:-|n:9 y=f:a"),
    ("line", "strokeWidth=if:datum.a=='A',n:3|g:1000000000000000+1"),
    ("line", "strokeWidth=if:datum.a=='B',n:3|g:1000000000000000+1"),
    ("area", "x=s:x,f:a y=s:y,f:amount y2=s:y,null:- fill=t:blue"),
    ("area", "x=if:datum.a=='B',null:-|n:9 y=n:4 y2=n:8"),
    ("area", "x=n:9 y=n:4 x2=if:datum.a=='B',null:-|n:8"),
    ("area", "y2=g:1000000000000000+1"),
    # sorts
    ("rect", "x=f:amount", "", "-amount"),
    ("symbol", "y=f:a x=n:1", "", "a"),
    ("symbol", "x=n:1 shape=s:form,f:a", "", "-a"),
    ("rule", "x=n:1 stroke=f:a", "", "-amount a"),
    ("text", "text=f:a", "", "-a -amount"),
    # texts
    ("text", ""),
    ("text", "text=f:amount x=s:x,f:a,b:0.5 y=s:y,f:amount fill=t:black dy=n:-6 baseline=t:bottom"),
    ("text", "text=t:a fill=t:red stroke=t:black strokeWidth=n:3 opacity=n:0.5"),
    ("text", "text=t:a stroke=n:7"),
    ("text", "text=t:a stroke=t:black strokeWidth=t:wide"),
    ("text", "text=t:a stroke=t:black strokeWidth=g:1000000000000000+1"),
    ("text", "text=t:a fontSize=n:20 baseline=t:top dx=n:2 dy=n:3 align=t:left"),
    ("text", "text=t:a fontSize=n:13"),
    ("text", "text=t:a xc=n:9 yc=n:8"),
    ("text", "text=t:a dx=null:-"),
    ("text", "text=t:a dy=t:1"),
    ("text", "text=t:a y=null:- x=g:1000000000000000 dx=n:1"),
    ("text", "text=t:a y=g:1000000000000000"),
    ("text", "text=t:a y=g:1000000000000000 dy=n:-3.3"),
    ("text", "text=t:a y=g:1000000000000000 dy=n:-3.299999"),
    ("text", "text=t:a y=g:-1000000000000000 baseline=t:bottom dy=n:-1"),
    ("text", "text=g:1000000000000000,o:1"),
    ("text", "text=g:1000000000000000+1 x=null:-"),
    ("text", "fontSize=g:1000000000000000+1"),
    ("text", "text=t:a size=g:1000000000000000+1"),
    ("text", "text=t:a", "text=if:datum.a=='B',t:b"),
    # a group has no items of its own
    ("group", "x=n:1 y=n:2 fill=t:blue"),
]


# the channels in which groups encode numbers, over a facet of A and another, inside it, of B with 28
FACET = {"a": "B", "amount": F(28)}
GROUP_VALUES = NUMBERS + ("f:other", "s:x,f:a", "s:y,null:-", "null:-", "t:word", "b:1", "s:x,b:0.5", "if:datum.a=='A',n:3|n:4", "g:1000000000000000,o:1",
                          "f:a|n:3", "if:datum.a=='A',g:1000000000000000+1|n:5", "if:datum.a=='B',g:1000000000000000+1|n:5")


# values over the scales of an object with an own scale x, inside the chart
INNER_VALUES = ("s:x,f:a", "s:x,t:A", "s:x,b:0.5", "s:y,f:amount", "s:count,f:a", "s:other,n:3")


def group_line(channel, enter, update="", kind="group-"):
    """The number that a group encodes in a channel, 0 where it encodes none."""
    sets = {}
    for words in (enter, update):
        sets.update(word.split("=", 1) for word in words.split(" ") if word)
    try:
        found = Channels(sets, FACET).number(channel)
        answer = spelled([found if is_number(found) else F(0)])
    except OverflowError:
        answer = "overflow"
    return "\t".join((answer, kind + channel, enter, update, ""))


def inner_line(channel, enter):
    """The same in the object that has an own scale x."""
    hidden = SCALES["x"]
    SCALES["x"] = SCALES["count"]
    found = group_line(channel, enter, kind="inner-")
    SCALES["x"] = hidden
    return found


def lines():
    for channel in ("x", "y", "width", "height"):
        for words in GROUP_VALUES:
            yield group_line(channel, f"{channel}={words}")
        yield group_line(channel, "fill=t:blue")
        yield group_line(channel, f"{channel}=n:1", f"{channel}=n:2")
    for words in INNER_VALUES:
        yield inner_line("x", f"x={words}")
    for type_, (base, channels) in TYPES.items():
        yield line(type_, base)
        for numbers, texts in UNREAD:
            unread = [f"{n}={numbers}" for n in PLACED if n not in channels] + [f"{n}={texts}" for n in WORDED if n not in channels]
            yield line(type_, " ".join([base] + unread))
        for name, values in (channels | LOOKS).items():
            without = " ".join(word for word in base.split(" ") if not word.startswith(name + "="))
            if without != base:
                yield line(type_, without)
            for words in values:
                yield line(type_, f"{without} {name}={words}".strip())
    for other in OTHERS:
        yield line(*other)


if __name__ == "__main__":
    assert LIMIT == MOST * MILLION
    print("\n".join(lines()))
