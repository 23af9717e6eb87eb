#!/usr/bin/env python3
"""Draws examples that have marks apart from the program, and compares the pictures and replies that are stored beside them.

Usage: oracles/mark_pictures.py [NAME..], at the top of the repository, with examples/x.json for a picture and examples/x for the replies
to x.script; without a word all of SPECS and CHANGES. With `-` first they are printed and not compared.

It takes specifications of one plot with what the examples have: values and CSV files, filters, formulas, stacks, scales of every type but
ramps, marks of every type but groups, axes, legends and a title. Places are computed with fractions. What a script makes of the rows of
the first data set stands in CHANGES.
"""
import csv
import datetime
import json
import math
import re
import sys
from fractions import Fraction as F
from html import escape

from guide_table import Scale, axis_answer, by_number_format, cut, display, is_number, is_number_format, legend_answer, near, root, said, step

SPECS = ("trees", "river", "warmth", "harvest", "deadlines", "shapes", "lollipops", "line-with-a-gap", "circles", "circles-in-one-place")
CATEGORY = "#4c78a8 #f58518 #e45756 #72b7b2 #54a24b #eeca3b #b279a2 #ff9da6 #9d755d #bab0ac".split()
SHAPES = ["circle", "square", "triangle-up", "diamond"]
LINES = {"line": 2, "symbol": 2}
MINUTE, HOUR, DAY = 60000, 3600000, 86400000
INTERVALS = ([(MINUTE * n, n) for n in (1, 5, 15, 30)] + [(HOUR * n, n) for n in (1, 3, 6, 12)]
             + [(DAY, 1), (2 * DAY, 2), (7 * DAY, 0), (30 * DAY, 1), (90 * DAY, 3), (365 * DAY, 1)])
CHANGES = {
    "lollipops": [lambda rows: rows + [{"town": "Legden", "change": F(900)}, {"town": "Heek"}]],
    "river": [lambda rows: rows[:4] + [rows[4] | {"level": F(137)}] + rows[5:], lambda rows: [row for row in rows if row["gauge"] != "weir"]],
}
MADE_OF = {"max": lambda numbers: max(numbers, default=None), "sum": lambda numbers: sum(numbers, F(0))}
EPOCH = datetime.datetime(1970, 1, 1)
LACKING = object()


def moment(at):
    return EPOCH + datetime.timedelta(milliseconds=int(at))


def instant(text):
    """The instant of a date, or of a date and a time in UTC."""
    if not isinstance(text, str):
        return text
    for form in ("%Y-%m-%d", "%Y-%m-%dT%H:%MZ"):
        try:
            return F((datetime.datetime.strptime(text, form) - EPOCH) // datetime.timedelta(milliseconds=1))
        except ValueError:
            pass
    return None


def is_boundary(t, length, n):
    """Whether a moment is one of a unit of time of this length."""
    if length < HOUR:
        return t.second == 0 and t.minute % n == 0
    if t.minute or t.second:
        return False
    if length < DAY:
        return t.hour % n == 0
    if t.hour:
        return False
    if length == 7 * DAY:
        return t.isoweekday() == 7
    if length < 7 * DAY:
        return (t.day - 1) % n == 0
    return t.day == 1 and ((t.month - 1) % n == 0 if length < 365 * DAY else t.month == 1)


def times(lo, hi, count):
    """The ticks of a domain of instants, between a minute and a year."""
    t = F(hi - lo) / count
    (a, n), (b, m) = next(two for two in zip(INTERVALS, INTERVALS[1:]) if two[0][0] <= t < two[1][0])
    length, n = (a, n) if t * t < a * b else (b, m)
    start = math.ceil(F(lo) / MINUTE)
    return [F(k * MINUTE) for k in range(start, math.floor(F(hi) / MINUTE) + 1) if is_boundary(moment(k * MINUTE), length, n)]


def time_label(at, form=None):
    t = moment(at)
    if form is None and (t.minute or t.second):
        form = "%I:%M"
    if form is None and t.hour:
        form = "%I %p"
    if form is None and t.day != 1:
        form = "%b %d" if t.isoweekday() == 7 else "%a %d"
    if form is None:
        form = "%B" if t.month != 1 else "%Y"
    return t.strftime(form)


def value_of(expression, row, values={}):
    """What an expression gives for a row and values of signals, by python's own reading of it."""
    names = re.sub(r"datum\.(\w+)", r"row.get('\1')", expression).replace("&&", " and ").replace("||", " or ").replace("null", "None")
    names = re.sub(r"domain\((.*?)\)\.length", r"length_of(\1)", names)
    try:
        value = eval(names, {"row": row, **values})
    except (TypeError, NameError):
        return None
    return near(value) if isinstance(value, (int, F)) and not isinstance(value, bool) else value


def given_rows(data, known):
    """The rows with which a data set begins."""
    if "source" in data:
        rows = [dict(row) for row in known[data["source"]]]
    elif "url" not in data:
        rows = [dict(row) for row in data.get("values", [])]
    else:
        with open(data["url"], newline="") as file:
            rows = list(csv.DictReader(file))
        numbers = re.compile(r"-?(0|[1-9]\d*)(\.\d+)?")
        rows = [{k: None if v == "" else F(v) if numbers.fullmatch(v) else v for k, v in row.items()} for row in rows]
    for name, kind in data.get("format", {}).get("parse", {}).items():
        for row in rows:
            row[name] = instant(row.get(name)) if kind == "date" else row.get(name)
    return rows


def transformed(t, rows):
    if t["type"] == "filter":
        return [row for row in rows if value_of(t["expr"], row)]
    if t["type"] == "formula":
        return [row | {t["as"]: value_of(t["expr"], row)} for row in rows]
    assert t["type"] == "stack" and t.get("offset", "zero") == "zero"
    tops, made = {}, {}
    for i in in_order(list(range(len(rows))), t.get("sort"), lambda i: rows[i]):
        value, group = rows[i].get(t["field"]), tuple(rows[i].get(f) for f in t["groupby"])
        if is_number(value):
            start = tops.get((group, value >= 0), F(0))
            tops[group, value >= 0] = start + value
            made[i] = (start, start + value)
    return [row | dict(zip(t["as"], made.get(i, (None, None)))) for i, row in enumerate(rows)]


def rank(cell):
    return (0, 0) if cell is None else (1, cell) if isinstance(cell, bool) else (2, cell) if is_number(cell) else (3, cell.encode())


def listed(x):
    return x if isinstance(x, list) else [x]


def in_order(rows, sort, of=lambda row: row):
    if sort is not None:
        fields = listed(sort["field"])
        orders = listed(sort.get("order", ["ascending"] * len(fields)))
        for field, order in reversed(list(zip(fields, orders))):
            rows = sorted(rows, key=lambda row: rank(of(row).get(field)), reverse=order == "descending")
    return rows


def scale_of(s, lists, width, height):
    domain, range_ = s["domain"], s["range"]
    continuous = s["type"] in ("linear", "time")
    if range_ in ("width", "height"):
        range_ = [F(0), width] if range_ == "width" else [height, F(0)] if continuous else [F(0), height]
    if isinstance(domain, dict):
        references = [r for r in domain.get("fields", [domain])]
        cells = [row.get(r["field"]) for r in references for row in lists[r["data"]]]
        if not continuous:
            cells = list(dict.fromkeys(cells))
            sort = domain.get("sort")
            if isinstance(sort, dict):
                assert sort["op"] in MADE_OF and len(references) == 1
                found = {c: [row.get(sort["field"]) for row in lists[domain["data"]] if row.get(domain["field"]) == c] for c in cells}
                made = {c: MADE_OF[sort["op"]](list(filter(is_number, found[c]))) for c in cells}
                cells = sorted(sorted(cells, key=rank), key=lambda c: rank(made[c]), reverse=sort.get("order") == "descending")
            elif sort:
                cells = sorted(cells, key=rank)
    else:
        cells = domain
    if not continuous:
        if s["type"] == "ordinal":
            entries = {"category": CATEGORY, "symbol": SHAPES}[range_] if isinstance(range_, str) else range_
            return Scale("ordinal", (), cells, entries[::-1] if s.get("reverse") else entries)
        both = s.get("padding", F(0))
        return Scale(s["type"], (s.get("paddingInner", both), s.get("paddingOuter", both), *range_), cells)
    numbers = [c for c in cells if is_number(c)] or [F(0), F(1)]
    lo, hi = min(numbers), max(numbers)
    if s.get("zero", s["type"] == "linear"):
        lo, hi = min(lo, F(0)), max(hi, F(0))
    for _ in range(10 if s.get("nice") and lo < hi else 0):
        assert s["type"] == "linear"
        by = step(lo, hi, 10)
        lo, hi = math.floor(lo / by) * by, math.ceil(hi / by) * by
    return Scale(s["type"], (lo, hi, *(range_[::-1] if s.get("reverse") else range_)), ())


def base_of(s):
    d0, d1, r0, r1 = s.n if s.is_continuous() else (1, 1, s.n[2], s.n[3])
    return s.place(F(0)) if s.is_continuous() and d0 <= 0 <= d1 else r0


def band_of(s, share):
    if s.kind != "band":
        return F(0)
    inner, outer, r0, r1 = s.n
    return near(share * near(abs(r1 - r0) * (1 - inner) / (len(s.domain) - inner + 2 * outer)))


def label_of(cell, form):
    if form is not None and is_number(cell):
        return by_number_format(form, None, cell) if is_number_format(form) else time_label(cell, form)
    return display(cell)


class Channels:
    """The channels of a mark for a row."""

    def __init__(self, sets, scales, row, values={}):
        self.sets, self.scales, self.row, self.values = sets.get("enter", {}) | sets.get("update", {}), scales, row, values

    def value(self, name):
        for v in listed(self.sets.get(name, [])):
            if "test" not in v or value_of(v["test"], self.row, self.values):
                return v
        return None

    def cell(self, v):
        return value_of(v["signal"], self.row, self.values) if "signal" in v else self.row.get(v["field"]) if "field" in v else v.get("value")

    def on(self, v):
        """The number that a value gives, None where it has none."""
        s, cell, band = self.scales.get(v.get("scale")), self.cell(v), v.get("band")
        if s is None:
            return cell + v.get("offset", 0) if is_number(cell) else None
        if "value" in v and cell is None:
            return base_of(s) + v.get("offset", 0)
        if not {"signal", "field", "value"} & set(v):
            return band_of(s, band) + v.get("offset", 0)
        at = s.place(cell) if band == F("0.5") or s.kind == "point" else s.plain_place(cell)
        return None if at is None else at + (0 if band in (None, F("0.5")) else band_of(s, band)) + v.get("offset", 0)

    def number(self, name, default=None):
        v = self.value(name)
        if v is None:
            return default
        found = self.on(v)
        return LACKING if found is None else found

    def text(self, name):
        v = self.value(name)
        if v is None:
            return None
        s, cell = self.scales.get(v.get("scale")), self.cell(v)
        found = cell if s is None else s.paint(cell)
        return found if isinstance(found, str) else LACKING

    def words(self):
        v = self.value("text")
        return "" if v is None else label_of(self.on(v) if self.on(v) is not None else self.cell(v), v.get("format"))

    def place(self, near_end, middle):
        found = self.number(near_end, self.number(middle, F(0)))
        return found

    def ends(self, near_end, far, whole):
        a, b = self.number(near_end), self.number(far)
        return (F(0), whole if b is None else b) if a is None else (a, a if b is None else b)

    def span(self, near_end, far, size):
        a, b, s = self.number(near_end), self.number(far), self.number(size, F(0))
        return (a, s) if b is None or LACKING in (a, b) else (min(a, b), abs(a - b))


def pairs(**places):
    return "".join(f' {name.replace("_", "-")}="{said(v) if is_number(v) else v}"' for name, v in places.items())


def painted(shape, fill, stroke, width, opacity, words=None):
    """The line of an item."""
    line = shape.startswith("line")
    out = "<" + shape
    if not line:
        out += pairs(fill=fill or "none")
    if stroke and words is None:
        out += pairs(stroke=stroke, stroke_width=width)
    if opacity != 1:
        out += pairs(opacity=opacity)
    return out + ("/>" if words is None else ">" + escape(words, quote=False).replace('"', "&quot;") + "</text>")


def looks(c, type_, on_path=False):
    fill, stroke, width, opacity = c.text("fill"), c.text("stroke"), c.number("strokeWidth"), c.number("opacity")
    if on_path:
        width, opacity = (None if x is LACKING else x for x in (width, opacity))
    return fill, stroke, F(LINES.get(type_, 1)) if width is None else width, F(1) if opacity is None else opacity


def path(steps):
    return 'path d="' + " ".join(letter + ",".join(map(said, at)) for letter, *at in steps) + '"'


def symbol(c):
    x, y, size, form = c.place("x", "xc"), c.place("y", "yc"), c.number("size", F(30)), c.text("shape")
    if LACKING in (x, y, size) or size < 0:
        return None
    r = near(root(size) / 2)
    if form == "square":
        return "rect" + pairs(x=x - r, y=y - r, width=root(size), height=root(size))
    if form == "diamond":
        return path((("M", x - r, y), ("L", x, y - r), ("L", x + r, y), ("L", x, y + r), ("Z",)))
    if form == "triangle-up":
        h = near(r * F("0.866025"))
        return path((("M", x, y - h), ("L", x - r, y + h), ("L", x + r, y + h), ("Z",)))
    return "circle" + pairs(cx=x, cy=y, r=r)


def letters(c):
    x, y, dx, dy, size = c.place("x", "xc"), c.place("y", "yc"), c.number("dx", F(0)), c.number("dy", F(0)), c.number("fontSize", F(11))
    if LACKING in (x, y, dx, dy):
        return None
    below = {"top": size, "bottom": F(0), "alphabetic": F(0)}.get(c.text("baseline"), near(size * F("0.3")))
    anchor = {"left": "start", "right": "end"}.get(c.text("align"), "middle")
    return "text" + pairs(x=x + dx, y=y + below + dy, text_anchor=anchor, font_size=size)


def shape(type_, c, width, height):
    if type_ == "symbol":
        return symbol(c)
    if type_ == "text":
        return letters(c)
    if type_ == "rule":
        x, y = c.ends("x", "x2", width), c.ends("y", "y2", height)
        return None if LACKING in x + y else "line" + pairs(x1=x[0], y1=y[0], x2=x[1], y2=y[1])
    x, y = c.span("x", "x2", "width"), c.span("y", "y2", "height")
    return None if LACKING in x + y else "rect" + pairs(x=x[0], y=y[0], width=x[1], height=y[1])


def track(type_, over):
    """The path of a line or an area over the channels of its rows, broken where one lacks a place."""
    runs = [[]]
    for c in over:
        there = c.place("x", "xc"), c.place("y", "yc")
        back = (c.number("x2", there[0]), c.number("y2", there[1])) if type_ == "area" else ()
        if LACKING in there + back:
            runs.append([])
        else:
            runs[-1].append((there, back))
    steps = []
    for run in filter(None, runs):
        steps += [("L" if i else "M", *there) for i, (there, _) in enumerate(run)]
        if type_ == "area":
            steps += [("L", *back) for _, back in reversed(run)] + [("Z",)]
    return path(steps) if steps else None


def items_of(mark, lists, scales, width, height, values={}):
    over = [Channels(mark.get("encode", {}), scales, row, values) for row in in_order(lists[mark["from"]["data"]], mark.get("sort"))]
    type_ = mark["type"]
    if type_ in ("line", "area"):
        if over:
            look, found = looks(over[0], type_, True), track(type_, over)
            if found is not None and LACKING not in look:
                yield painted(found, *look)
        return
    for c in over:
        look, found = looks(c, type_), shape(type_, c, width, height)
        if found is not None and LACKING not in look:
            yield painted(found, *look, c.words() if type_ == "text" else None)


def line_of(guide):
    """The line of an item of a guide, of the words of the table of guides."""
    words = guide.split(" ")
    *shape_, fill, stroke, width, opacity = words
    fill, stroke = (None if x == "none" else x for x in (fill, stroke))
    kind, at = shape_[0], shape_[1:]
    if kind == "text":
        x, y, turned, anchor, size, weight = at[:6]
        place = f' transform="translate({x},{y}) rotate(-90)"' if turned == "turned" else pairs(x=x, y=y)
        bold = ' font-weight="bold"' if weight == "bold" else ""
        return painted("text" + place + pairs(text_anchor=anchor, font_size=size) + bold, fill, stroke, width, F(opacity), " ".join(at[6:]))
    if kind == "path":
        steps = re.findall(r"([MLZ])((?: -?[\d.]+)*)", " ".join(at).rsplit(" ", 1)[0])
        return painted('path d="' + " ".join(letter + ",".join(places.split()) for letter, places in steps) + '"', fill, stroke, width, F(opacity))
    names = {"line": ("x1", "y1", "x2", "y2"), "rect": ("x", "y", "width", "height"), "circle": ("cx", "cy", "r")}[kind]
    return painted(kind + pairs(**dict(zip(names, at))), fill, stroke, width, F(opacity))


def lines_in(guides):
    return [line_of(guide) for guide in re.findall(r"\{([^}]*)\}", guides)]


def labels_of(s, cells, form):
    return {c: time_label(c, form) for c in cells if is_number(c)} if s.kind == "time" and not (form and is_number_format(form)) else {}


def axes_of(spec, scales, width, height):
    """The grids and the axes, and how far they extend at each side."""
    grids, items, extents = [], [], dict.fromkeys(("left", "right", "top", "bottom"), F(0))
    along = [a for a in spec.get("axes", []) if a["orient"] in ("bottom", "top")]
    for a in along + [a for a in spec.get("axes", []) if a not in along]:
        s, side = scales[a["scale"]], a["orient"]
        size = width if side in ("bottom", "top") else height
        count = int(a["tickCount"]) if "tickCount" in a else max(1, min(1000, math.ceil(size / 40)))
        ticks = times(s.n[0], s.n[1], count) if s.kind == "time" else ()
        parts = "".join(p for p, name in zip("ltd", ("labels", "ticks", "domain")) if a.get(name, True))
        parts += ("g" if a.get("grid") else "") + ("r" if a.get("labelAngle", 0) else "")
        form = a.get("format")
        labels = labels_of(s, list(a.get("values", ticks)), form)
        answer = axis_answer(s, side, parts, a.get("title"), count, a.get("values"), form, width, height, extents[side], ticks, labels)
        extent, grid, rest = re.fullmatch(r"(\S+) grid (.*?) ?items (.*)", answer).groups()
        extents[side] += F(extent)
        grids += lines_in(grid)
        items += lines_in(rest)
    return grids + items, extents


def legends_of(spec, scales):
    for channel in ("fill", "opacity", "shape", "size"):
        for g in spec.get("legends", []):
            if channel in g:
                words = legend_answer(scales[g[channel]], "color" if channel == "fill" else channel, g.get("title"), g.get("format"), "#4c78a8", (), {})
                across, down, rest = re.fullmatch(r"(\S+) (\S+) items (.*)", words).groups()
                yield F(across), F(down), lines_in(rest)


def picture_of(spec, changes=()):
    width, height, padding = spec["width"], spec["height"], spec.get("padding", F(5))
    lists = {}
    for i, data in enumerate(spec["data"]):
        rows = given_rows(data, lists)
        for change in changes if i == 0 else ():
            rows = change(rows)
        for t in data.get("transform", []):
            rows = transformed(t, rows)
        lists[data["name"]] = rows
    scales = {s["name"]: scale_of(s, lists, width, height) for s in spec["scales"]}
    items, extents = axes_of(spec, scales, width, height)
    if "title" in spec:
        items.insert(0, line_of(f"text {said(near(width / 2))} {said(-(extents['top'] + 10))} upright middle 13 bold {spec['title']} #000 none 1 1"))
        extents["top"] += 23
    for mark in spec["marks"]:
        items += items_of(mark, lists, scales, width, height)
    across = extents["left"] + width + extents["right"]
    down = extents["top"] + height + extents["bottom"]
    panels = [(padding + extents["left"], padding + extents["top"], items)]
    top, reach = F(0), F(0)
    for w, h, lines in legends_of(spec, scales):
        panels.append((padding + across + 18, padding + top, lines))
        reach, top = max(reach, 18 + w), top + h + 18
    size = said(across + reach + 2 * padding), said(max(down, top - 18) + 2 * padding)
    out = [f'<svg xmlns="http://www.w3.org/2000/svg" version="1.1" width="{size[0]}" height="{size[1]}" viewBox="0 0 {size[0]} {size[1]}">']
    for x, y, lines in panels:
        out += [f'<g transform="translate({said(cut(x))},{said(cut(y))})">', *lines, "</g>"]
    return "\n".join(out + ["</svg>", ""])


def replies_of(spec, changes):
    return "".join("ok\n" + picture_of(spec, changes[:count]) for count in range(1, len(changes) + 1))


def main(words):
    """Compares or prints; a name without `.json` is that of an example's replies."""
    printed = words[:1] == ["-"]
    names = words[1 if printed else 0:] or [f"examples/{name}{end}" for name in SPECS for end in (".json", "") if end or name in CHANGES]
    wrong = []
    for name in names:
        start = name.removesuffix(".json")
        with open(start + ".json") as file:
            spec = json.load(file, parse_float=F, parse_int=F)
        if name != start:
            stored, answer = start + ".svg", picture_of(spec)
        else:
            stored, answer = start + ".replies", replies_of(spec, CHANGES[start.removeprefix("examples/")])
        if printed:
            print(answer, end="")
            continue
        with open(stored) as file:
            if file.read() != answer:
                wrong.append(stored)
    for stored in wrong:
        print(f"mark_pictures: {stored} differs", file=sys.stderr)
    return 1 if wrong else 0


if __name__ == "__main__":
    sys.exit(main(sys.argv[1:]))
