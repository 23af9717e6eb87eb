#!/usr/bin/env python3
"""Writes cases/vega/events.cases: scripts of clicks and drags over Vega specifications, with the pictures after them. What an event does is written
here from the rules in words (docs/FORMATS.md, "Events of the mouse"), over plots whose places are given; nothing is asked of the program.

Usage: oracles/event_cases.py, at the top of the repository. With words it plays random scripts over the same charts on a program, each of its own
seed, and compares what comes: oracles/event_cases.py PROGRAM [COUNT [SEED]].
"""
import json
import os
import random
import subprocess
import sys
import tempfile
from fractions import Fraction

MILLION = 1_000_000
RADIUS = Fraction(2738613, MILLION)
DAY = 86_400_000


def decimal(n):
    """A number as it is written: up to six digits behind the point."""
    millionths = int(n * MILLION)
    sign, millionths = "-" if millionths < 0 else "", abs(millionths)
    whole, rest = divmod(millionths, MILLION)
    return sign + str(whole) + ("." + f"{rest:06}".rstrip("0") if rest else "")


def rounded(q):
    """To whole millionths, halves upward."""
    return Fraction((q * MILLION + Fraction(1, 2)).__floor__(), MILLION)


class Scale:
    def __init__(self, d0, d1, r0, r1):
        self.d0, self.d1, self.r0, self.r1 = Fraction(d0), Fraction(d1), Fraction(r0), Fraction(r1)

    def place(self, v):
        if self.d0 == self.d1:
            return self.r0 + rounded((self.r1 - self.r0) / 2)
        return self.r0 + rounded((v - self.d0) * (self.r1 - self.r0) / (self.d1 - self.d0))

    def inverse(self, p):
        """Cut to the domain."""
        v = self.d0 + rounded((p - self.r0) * (self.d1 - self.d0) / (self.r1 - self.r0))
        return min(max(v, min(self.d0, self.d1)), max(self.d0, self.d1))


class Item:
    """An item of a unit for a row, with what it shows beside its fill."""

    def __init__(self, unit, key, row, shape, at):
        self.unit, self.key, self.row, self.shape, self.at = unit, key, row, shape, at

    def has(self, x, y):
        if self.shape == "circle":
            cx, cy = self.at
            return (x - cx) ** 2 + (y - cy) ** 2 <= RADIUS ** 2
        left, top, width, height = self.at
        return left <= x <= left + width and top <= y <= top + height

    def line(self, fill):
        if self.shape == "circle":
            return f'<circle cx="{decimal(self.at[0])}" cy="{decimal(self.at[1])}" r="2.738613" fill="{fill}"/>'
        left, top, width, height = self.at
        return f'<rect x="{decimal(left)}" y="{decimal(top)}" width="{decimal(width)}" height="{decimal(height)}" fill="{fill}"/>'


class Panel:
    """A plot with its items; one without marks, or a title, is no plot for events."""

    def __init__(self, x, y, width, height, plot, facet, items, title=None):
        self.x, self.y, self.width, self.height, self.plot, self.facet, self.items, self.title = x, y, width, height, plot, facet, items, title

    def holds(self, x, y):
        return self.x <= x <= self.x + self.width and self.y <= y <= self.y + self.height


class Selection:
    def __init__(self, name, units, click=None, toggle=None, clears=False, drag=()):
        self.name, self.units, self.click, self.toggle, self.clears, self.drag = name, units, click, toggle, clears, drag


class Store:
    def __init__(self):
        self.tuples, self.extents, self.facet, self.unit = [], [], None, 0

    def is_empty(self):
        return not self.tuples and not self.extents

    def holds(self, row):
        if self.extents:
            return all(isinstance(row.get(field), (int, Fraction)) and lo <= row[field] <= hi for _, field, lo, hi in self.extents)
        return any(all(row.get(f) == c for f, c in t.items()) for t in self.tuples)


class Chart:
    """A specification, with what is drawn of it: `draw` gives the size of the picture and its panels from the rows and the stores, `fill` the fill of an
    item, `scales` the scale of a selection's channel in a panel."""

    def __init__(self, spec, rows, selections, units_of_plots, draw, fill, scales, values=()):
        self.values = dict(values)
        self.spec, self.rows, self.selections, self.plots = spec, [dict(r, _vgsid_=i + 1) for i, r in enumerate(rows)], selections, units_of_plots
        self.draw, self.fill, self.scales = draw, fill, scales
        self.stores = {s.name: Store() for s in selections}
        self.next = len(rows) + 1

    def panel_at(self, x, y):
        found = None
        for panel in self.draw(self)[1]:
            if panel.plot is not None and panel.holds(x, y):
                found = panel
        return found

    def units_in(self, s, panel):
        return [u for u in self.plots[panel.plot] if u in s.units]

    def hold(self, s, panel):
        store = self.stores[s.name]
        if store.is_empty():
            self.stores[s.name] = Store()
        else:
            store.facet, store.unit = panel.facet, min(self.units_in(s, panel))

    def event(self, kind, x, y, x2=None, y2=None):
        x, y = Fraction(str(x)), Fraction(str(y))
        panel = self.panel_at(x, y)
        if panel is None:
            return
        for s in self.selections:
            units = self.units_in(s, panel)
            if not units:
                continue
            store = self.stores[s.name]
            fields = s.click if kind == "click" else s.toggle
            if kind in ("click", "shift") and fields is not None:
                hits = [i for i in panel.items if i.unit in units and i.has(x - panel.x, y - panel.y)]
                row = {f: hits[-1].row.get(f) for f in fields} if hits else None
                if kind == "click":
                    self.stores[s.name] = store = Store()
                    store.tuples = [row] if hits else []
                    self.hold(s, panel)
                elif hits:
                    store.tuples = [t for t in store.tuples if t != row] if row in store.tuples else store.tuples + [row]
                    self.hold(s, panel)
            elif kind == "double" and s.clears:
                self.stores[s.name] = Store()
            elif kind == "drag" and s.drag:
                extents = []
                for channel, field in s.drag:
                    scale = self.scales(self, s, channel, panel)
                    size, from_, to = (panel.width, x - panel.x, Fraction(str(x2)) - panel.x) if channel == "x" else (panel.height, y - panel.y, Fraction(str(y2)) - panel.y)
                    if scale.r0 == scale.r1:
                        extents = []
                        break
                    ends = sorted(scale.inverse(min(max(p, Fraction(0)), Fraction(size))) for p in (from_, to))
                    if ends[0] == ends[1]:
                        extents = []
                        break
                    extents.append((channel, field, *ends))
                self.stores[s.name] = store = Store()
                store.extents = extents
                self.hold(s, panel)

    def picture(self):
        (width, height), panels = self.draw(self)
        lines = {id(p): [i.line(self.fill(self, i)) for i in p.items] for p in panels}
        for p in panels:
            if p.title is not None:
                lines[id(p)] = [f'<text x="{decimal(Fraction(p.width, 2))}" y="13" text-anchor="middle" font-size="13" font-weight="bold" fill="#000">{p.title}</text>']
        for s in self.selections:
            store = self.stores[s.name]
            if not store.extents:
                continue
            for panel in panels:
                if panel.plot is not None and store.unit in self.plots[panel.plot] and panel.facet == store.facet:
                    spans = {"x": (Fraction(0), Fraction(panel.width)), "y": (Fraction(0), Fraction(panel.height))}
                    for channel, _, lo, hi in store.extents:
                        scale, size = self.scales(self, s, channel, panel), spans[channel][1]
                        places = sorted(min(max(scale.place(v), Fraction(0)), size) for v in (lo, hi))
                        spans[channel] = (places[0], places[1] - places[0])
                    (left, across), (top, down) = spans["x"], spans["y"]
                    lines[id(panel)].append(f'<rect x="{decimal(left)}" y="{decimal(top)}" width="{decimal(across)}" height="{decimal(down)}" fill="#333" opacity="0.125"/>')
                    break
        out = [f'<svg xmlns="http://www.w3.org/2000/svg" version="1.1" width="{decimal(width)}" height="{decimal(height)}" viewBox="0 0 {decimal(width)} {decimal(height)}">']
        for p in panels:
            out += [f'<g transform="translate({decimal(p.x)},{decimal(p.y)})">', *lines[id(p)], "</g>"]
        return out + ["</svg>"]


# ---- parts of specifications

CLICK, SHIFT, DOUBLE, DRAG = "click", "click[event.shiftKey]", "dblclick", "[mousedown, mouseup] > mousemove"


def call(word, *args):
    return word + "(" + ", ".join(f"'{a}'" for a in args) + ")"


def signal(s, scales=(), marks=None):
    on = []
    if s.click is not None:
        on.append({"events": CLICK, "update": call("vlPoint", s.name, *s.click)})
    if s.toggle is not None:
        on.append({"events": SHIFT, "update": call("vlToggle", s.name, *s.toggle)})
    if s.clears:
        on.append({"events": DOUBLE, "update": call("vlClear", s.name)})
    if s.drag:
        on.append({"events": DRAG, "update": call("vlInterval", s.name, *[w for (c, f), scale in zip(s.drag, scales) for w in (c, scale, f)])})
    return {"name": s.name, **({"marks": marks} if marks is not None else {}), "on": on}


def held(name, empty=True):
    test = f"vlSelectionTest('{name}_store', datum)"
    return f"length(data('{name}_store')) == 0 || {test}" if empty else test


def symbol(unit_name, data, y, fill, x="x", field="p"):
    return {"type": "symbol", "name": unit_name, "from": {"data": data},
            "encode": {"update": {"x": {"scale": x, "field": field}, "y": y, "fill": fill}}}


def fills(test):
    return [{"test": test, "value": "red"}, {"value": "gray"}]


def linear(name, domain, range_):
    return {"name": name, "type": "linear", "domain": domain, "range": range_, "zero": False}


VEGA = "https://vega.github.io/schema/vega/v5.json"


def top(rows, signals, **members):
    return {"$schema": VEGA, "padding": 5, "signals": signals, "data": [{"name": "t", "values": rows}], **members}


def by_store(name, empty=True):
    def fill(chart, item):
        store = chart.stores[name]
        return "red" if (store.is_empty() and empty) or store.holds(item.row) else "gray"
    return fill


# ---- charts

def one_plot(rows, selection, test, fill, extra=(), scales=("x",), y_scale=None, x=(0, 10, 0, 100), height=20, marks=None):
    """Circles in one plot of 100 by `height`."""
    xs = Scale(*x)
    ys = Scale(*y_scale) if y_scale else None
    spec = top(rows, [signal(s, scales) for s in [selection, *extra]], width=100, height=height,
               scales=[linear("x", list(x[:2]), list(x[2:]))] + ([linear("y", list(y_scale[:2]), list(y_scale[2:]))] if ys else []),
               marks=[symbol("a", "t", {"scale": "y", "field": "q"} if ys else {"value": height // 2}, fills(test))])

    def draw(chart):
        items = [Item(0, r["_vgsid_"], r, "circle", (xs.place(r["p"]), ys.place(r["q"]) if ys else Fraction(height, 2))) for r in chart.rows]
        return (110, height + 10), [Panel(5, 5, 100, height, 0, None, items)]
    return Chart(spec, rows, [selection, *extra], [[0]], draw, fill, lambda c, s, channel, panel: xs if channel == "x" else ys)


POINTS = [{"p": 0, "c": "u"}, {"p": 4, "c": "u"}, {"p": 10, "c": "v"}, {"p": 10, "c": "w"}]
PAIRS = [{"p": 1, "q": 2}, {"p": 5, "q": 5}, {"p": 9, "q": 8}, {"p": 5, "q": 1}]


def clicks_by_id(empty=True):
    s = Selection("pick", [0], ["_vgsid_"], ["_vgsid_"], True)
    return one_plot(POINTS, s, held("pick", empty), by_store("pick", empty))


def clicks_by_field():
    s = Selection("pick", [0], ["c"], ["c"], True)
    return one_plot(POINTS, s, held("pick"), by_store("pick"))


def clicks_by_two_fields():
    s = Selection("pick", [0], ["p", "c"], ["c", "p"], True)
    return one_plot(POINTS, s, held("pick"), by_store("pick"))


def toggles_alone():
    s = Selection("pick", [0], None, ["_vgsid_"], False)
    return one_plot(POINTS, s, held("pick", False), by_store("pick", False))


def clicks_without_fields():
    s = Selection("pick", [0], [], [], True)
    return one_plot(POINTS, s, held("pick", False), by_store("pick", False))


def drag_along_x(x=(0, 10, 0, 100)):
    s = Selection("brush", [0], drag=(("x", "p"),), clears=True)
    return one_plot(POINTS, s, held("brush"), by_store("brush"), x=x)


def drag_along_both(empty=True):
    s = Selection("brush", [0], drag=(("x", "p"), ("y", "q")), clears=True)
    return one_plot(PAIRS, s, held("brush", empty), by_store("brush", empty), scales=("x", "y"), y_scale=(0, 10, 50, 0), height=50)


def drag_along_y():
    s = Selection("brush", [0], drag=(("y", "q"),))
    return one_plot(PAIRS, s, held("brush"), by_store("brush"), scales=("y",), y_scale=(0, 10, 50, 0), height=50)


def drag_of_times():
    rows = [{"p": 0}, {"p": 2 * DAY}, {"p": 5 * DAY}, {"p": 10 * DAY}]
    s = Selection("brush", [0], drag=(("x", "p"),), clears=True)
    chart = one_plot(rows, s, held("brush"), by_store("brush"), x=(0, 10 * DAY, 0, 100))
    chart.spec["scales"][0] = {"name": "x", "type": "time", "domain": [0, 10 * DAY], "range": [0, 100]}
    return chart


def click_and_drag():
    pick, brush = Selection("pick", [0], ["_vgsid_"], ["_vgsid_"], True), Selection("brush", [0], drag=(("x", "p"),), clears=True)
    test = held("pick", False) + " || " + held("brush", False)
    chart = one_plot(POINTS, pick, test, lambda c, i: "red" if c.stores["pick"].holds(i.row) or c.stores["brush"].holds(i.row) else "gray", extra=(brush,))
    return chart


def layers():
    """Two marks in one plot; one selection concerns both, one only the second."""
    both, second = Selection("both", [0, 1], ["_vgsid_"], ["_vgsid_"], True), Selection("second", [1], ["_vgsid_"], ["_vgsid_"], True)
    rows = [{"p": 0}, {"p": 5}, {"p": 10}]
    xs = Scale(0, 10, 0, 100)
    bars = {"type": "rect", "name": "bars", "from": {"data": "t"},
            "encode": {"update": {"x": {"scale": "x", "field": "p", "offset": -4}, "width": {"value": 8}, "y": {"value": 5}, "height": {"value": 15},
                                  "fill": fills(held("both", False))}}}
    spec = top(rows, [signal(both), signal(second, marks=["dots"])], width=100, height=20, scales=[linear("x", [0, 10], [0, 100])],
               marks=[bars, symbol("dots", "t", {"value": 5}, fills(held("second", False)))])

    def draw(chart):
        items = [Item(0, r["_vgsid_"], r, "rect", (xs.place(r["p"]) - 4, 5, 8, 15)) for r in chart.rows]
        items += [Item(1, r["_vgsid_"], r, "circle", (xs.place(r["p"]), Fraction(5))) for r in chart.rows]
        return (110, 30), [Panel(5, 5, 100, 20, 0, None, items)]
    return Chart(spec, rows, [both, second], [[0, 1]], draw, lambda c, i: by_store("both" if i.unit == 0 else "second", False)(c, i), None)


def grid():
    """Two plots that touch; one selection concerns both, one only the second; a drag over both inverts a scale of each."""
    pick, right, brush = Selection("pick", [0, 1], ["_vgsid_"], ["_vgsid_"], True), Selection("right", [1], ["_vgsid_"], None, True), Selection("brush", [0, 1], drag=(("x", "p"),), clears=True)
    rows = [{"p": 0}, {"p": 5}, {"p": 10}]
    domains = [(0, 10), (0, 20)]
    tests = held("pick", False) + " || " + held("right", False) + " || " + held("brush", False)

    def plot(name, domain):
        return {"type": "group", "encode": {"update": {"width": {"value": 100}, "height": {"value": 20}}}, "scales": [linear("x", list(domain), [0, 100])],
                "marks": [symbol(name, "t", {"value": 10}, fills(tests))]}
    spec = top(rows, [signal(pick), signal(right, marks=["b"]), signal(brush, ("x",))], layout={"padding": 0, "columns": 2}, marks=[plot("a", domains[0]), plot("b", domains[1])])

    def scale(panel):
        return Scale(*domains[panel], 0, 100)

    def draw(chart):
        panels = []
        for at in (0, 1):
            items = [Item(at, r["_vgsid_"], r, "circle", (scale(at).place(r["p"]), Fraction(10))) for r in chart.rows]
            panels.append(Panel(5 + 100 * at, 5, 100, 20, at, None, items))
        return (210, 30), panels
    return Chart(spec, rows, [pick, right, brush], [[0], [1]], draw,
                 lambda c, i: "red" if any(c.stores[n].holds(i.row) for n in ("pick", "right", "brush")) else "gray", lambda c, s, channel, panel: scale(panel.plot))


def facets():
    """A plot for each cell of a field, side by side."""
    pick, brush = Selection("pick", [0], ["_vgsid_"], ["_vgsid_"], True), Selection("brush", [0], drag=(("x", "p"),), clears=True)
    tests = held("pick", False) + " || " + held("brush", False)
    xs = Scale(0, 10, 0, 100)
    group = {"type": "group", "from": {"facet": {"name": "f", "data": "t", "groupby": ["c"]}}, "encode": {"update": {"width": {"value": 100}, "height": {"value": 20}}},
             "marks": [symbol("a", "f", {"value": 10}, fills(tests))]}
    spec = top(POINTS, [signal(pick), signal(brush, ("x",))], layout={"padding": 10, "columns": 2}, scales=[linear("x", [0, 10], [0, 100])], marks=[group])

    def draw(chart):
        cells = list(dict.fromkeys(r["c"] for r in chart.rows))
        panels = []
        for at, cell in enumerate(cells):
            items = [Item(0, r["_vgsid_"], r, "circle", (xs.place(r["p"]), Fraction(10))) for r in chart.rows if r["c"] == cell]
            panels.append(Panel(5 + 110 * (at % 2), 5 + 30 * (at // 2), 100, 20, 0, {"c": cell}, items))
        across, down = min(len(cells), 2), (len(cells) + 1) // 2
        return (max(10, 110 * across), max(10, 30 * down)), panels
    return Chart(spec, POINTS, [pick, brush], [[0]], draw, lambda c, i: "red" if any(c.stores[n].holds(i.row) for n in ("pick", "brush")) else "gray",
                 lambda c, s, channel, panel: xs)


def hidden():
    """Marks that the selection itself hides: only what is held is drawn, or all where it is empty."""
    brush = Selection("brush", [0], drag=(("x", "p"),), clears=True)
    xs = Scale(0, 10, 0, 100)
    spec = top(POINTS, [signal(brush, ("x",))], width=100, height=20, scales=[linear("x", [0, 10], [0, 100])], marks=[symbol("a", "s", {"value": 10}, {"value": "red"})])
    spec["data"].append({"name": "s", "source": "t", "transform": [{"type": "filter", "expr": held("brush")}]})

    def draw(chart):
        store = chart.stores["brush"]
        items = [Item(0, r["_vgsid_"], r, "circle", (xs.place(r["p"]), Fraction(10))) for r in chart.rows if store.is_empty() or store.holds(r)]
        return (110, 30), [Panel(5, 5, 100, 20, 0, None, items)]
    return Chart(spec, POINTS, [brush], [[0]], draw, lambda c, i: "red", lambda c, s, channel, panel: xs)


def hidden_by_clicks():
    """Only what is held is drawn: what was clicked on can't be clicked on beside others."""
    pick = Selection("pick", [0], ["c"], ["c"], True)
    xs = Scale(0, 10, 0, 100)
    spec = top(POINTS, [signal(pick)], width=100, height=20, scales=[linear("x", [0, 10], [0, 100])], marks=[symbol("a", "s", {"value": 10}, {"value": "red"})])
    spec["data"].append({"name": "s", "source": "t", "transform": [{"type": "filter", "expr": held("pick")}]})

    def draw(chart):
        store = chart.stores["pick"]
        items = [Item(0, r["_vgsid_"], r, "circle", (xs.place(r["p"]), Fraction(10))) for r in chart.rows if store.is_empty() or store.holds(r)]
        return (110, 30), [Panel(5, 5, 100, 20, 0, None, items)]
    return Chart(spec, POINTS, [pick], [[0]], draw, lambda c, i: "red", None)


def narrowed():
    """The domain of a second plot is what is dragged in the first."""
    brush = Selection("brush", [0], drag=(("x", "p"),), clears=True)
    rows = [{"p": 0}, {"p": 4}, {"p": 8}, {"p": 10}]
    xs = Scale(0, 10, 0, 100)
    second = {"type": "group", "encode": {"update": {"width": {"value": 100}, "height": {"value": 20}}},
              "scales": [{"name": "z", "type": "linear", "domain": [0, 10], "domainRaw": {"signal": "brush.x"}, "range": [0, 100], "zero": False}],
              "marks": [symbol("b", "s", {"value": 10}, {"value": "red"}, x="z")]}
    first = {"type": "group", "encode": {"update": {"width": {"value": 100}, "height": {"value": 20}}}, "marks": [symbol("a", "t", {"value": 10}, {"value": "red"})]}
    spec = top(rows, [signal(brush, ("x",), marks=["a"])], layout={"padding": 10, "columns": 2}, scales=[linear("x", [0, 10], [0, 100])], marks=[first, second])
    spec["data"].append({"name": "s", "source": "t", "transform": [{"type": "filter", "expr": held("brush")}]})

    def draw(chart):
        store = chart.stores["brush"]
        ends = store.extents[0][2:] if store.extents else (0, 10)
        zs = Scale(*ends, 0, 100)
        a = [Item(0, r["_vgsid_"], r, "circle", (xs.place(r["p"]), Fraction(10))) for r in chart.rows]
        b = [Item(1, r["_vgsid_"], r, "circle", (zs.place(r["p"]), Fraction(10))) for r in chart.rows if store.is_empty() or store.holds(r)]
        return (220, 30), [Panel(5, 5, 100, 20, 0, None, a), Panel(115, 5, 100, 20, 1, None, b)]
    return Chart(spec, rows, [brush], [[0], [1]], draw, lambda c, i: "red", lambda c, s, channel, panel: xs)


def turned():
    chart = drag_along_x((0, 10, 100, 0))
    chart.spec["scales"][0].update({"range": [0, 100], "reverse": True})
    return chart


def at_one_range():
    return drag_along_x((0, 10, 50, 50))


def at_one_domain():
    rows = [{"p": 5, "c": "u"}, {"p": 5, "c": "v"}]
    s = Selection("brush", [0], drag=(("x", "p"),))
    return one_plot(rows, s, held("brush"), by_store("brush"), x=(5, 5, 0, 100))


# ---- plots over each other: they share edges and corners, and a plot of no width lies on an edge, or on others of none

def plot_of(name, y, x={"value": 0}, width=100, height=20, tests="false", **members):
    """A plot of symbols over the rows."""
    sized = {"width": width if isinstance(width, dict) else {"value": width}, "height": {"value": height}}
    return {"type": "group", "encode": {"update": sized}, **members,
            "marks": [{"type": "symbol", "name": name, "from": {"data": "t"}, "encode": {"update": {"x": x, "y": y, "fill": fills(tests)}}}]}


def any_held(*names):
    """Red where one of these selections holds the row."""
    return " || ".join(held(n, False) for n in names), lambda chart, item: "red" if any(chart.stores[n].holds(item.row) for n in names) else "gray"


def circles(unit, chart, x, y):
    return [Item(unit, r["_vgsid_"], r, "circle", (Fraction(x(r)), Fraction(y(r)))) for r in chart.rows]


ON_X, ON_Y = {"scale": "x", "field": "p"}, {"scale": "y", "field": "q"}


def crossing():
    """Four plots that meet in a corner, each with an x of its own."""
    pick, brush = Selection("pick", [0, 1, 2, 3], ["_vgsid_"], ["_vgsid_"], True), Selection("brush", [0, 1, 2, 3], drag=(("x", "p"), ("y", "q")), clears=True)
    rows = [{"p": 0, "q": 0}, {"p": 0, "q": 10}, {"p": 10, "q": 0}, {"p": 10, "q": 10}]
    ends, ys = (10, 10, 20, 20), Scale(0, 10, 0, 20)
    tests, fill = any_held("pick", "brush")
    spec = top(rows, [signal(pick), signal(brush, ("x", "y"))], layout={"padding": 0, "columns": 2}, scales=[linear("y", [0, 10], [0, 20])],
               marks=[plot_of(name, ON_Y, ON_X, tests=tests, scales=[linear("x", [0, end], [0, 100])]) for name, end in zip("abcd", ends)])

    def draw(chart):
        return (210, 50), [Panel(5 + 100 * (at % 2), 5 + 20 * (at // 2), 100, 20, at, None, circles(at, chart, lambda r: Scale(0, end, 0, 100).place(r["p"]), lambda r: ys.place(r["q"])))
                           for at, end in enumerate(ends)]
    return Chart(spec, rows, [pick, brush], [[0], [1], [2], [3]], draw, fill, lambda c, s, channel, panel: Scale(0, ends[panel.plot], 0, 100) if channel == "x" else ys)


def folded():
    """Three plots as wide as a signal says: with 0 they lie over each other whole."""
    pick, first = Selection("pick", [0, 1, 2], ["_vgsid_"], ["_vgsid_"], True), Selection("first", [0], ["_vgsid_"], ["_vgsid_"], True)
    tall, wide = Selection("tall", [0, 1, 2], drag=(("y", "p"),), clears=True), Selection("wide", [0, 1, 2], drag=(("x", "p"),), clears=True)
    rows = [{"p": 0, "q": 10}, {"p": 5, "q": 5}, {"p": 10, "q": 0}]
    xs, ys, width = Scale(0, 10, 0, 100), Scale(0, 10, 0, 50), {"signal": "w"}
    tests, fill = any_held("pick", "first", "tall", "wide")
    spec = top(rows, [{"name": "w", "value": 0}, signal(pick), signal(first, marks=["a"]), signal(tall, ("y",)), signal(wide, ("x",))], layout={"padding": 0},
               scales=[linear("x", [0, 10], [0, 100]), linear("y", [0, 10], [0, 50])],
               marks=[plot_of("a", {"scale": "y", "field": "p"}, width=width, height=50, tests=tests), plot_of("b", ON_Y, width=width, height=50, tests=tests),
                      plot_of("c", {"value": 10}, ON_X, width, 50, tests)])

    def draw(chart):
        w = chart.values["w"]
        items = [circles(0, chart, lambda r: 0, lambda r: ys.place(r["p"])), circles(1, chart, lambda r: 0, lambda r: ys.place(r["q"])), circles(2, chart, lambda r: xs.place(r["p"]), lambda r: 10)]
        return (10 + 3 * w, 60), [Panel(5 + at * w, 5, w, 50, at, None, items[at]) for at in range(3)]
    return Chart(spec, rows, [pick, first, tall, wide], [[0], [1], [2]], draw, fill, lambda c, s, channel, panel: xs if channel == "x" else ys, {"w": 0})


def between():
    """A plot of no width on the edge between two others, the last of which is less high."""
    pick, edge, tall = Selection("pick", [0, 1, 2], ["_vgsid_"], ["_vgsid_"], True), Selection("edge", [1], None, ["_vgsid_"]), Selection("tall", [1], drag=(("y", "p"),), clears=True)
    rows = [{"p": 0}, {"p": 10}]
    xs, ys = Scale(0, 10, 0, 100), Scale(0, 10, 0, 20)
    tests, fill = any_held("pick", "edge", "tall")
    spec = top(rows, [signal(pick), signal(edge, marks=["z"]), signal(tall, ("y",), ["z"])], layout={"padding": 0}, scales=[linear("x", [0, 10], [0, 100]), linear("y", [0, 10], [0, 20])],
               marks=[plot_of("a", {"value": 10}, ON_X, tests=tests), plot_of("z", {"scale": "y", "field": "p"}, width=0, tests=tests),
                      plot_of("c", {"value": 5}, ON_X, height=10, tests=tests)])

    def draw(chart):
        return (210, 30), [Panel(5, 5, 100, 20, 0, None, circles(0, chart, lambda r: xs.place(r["p"]), lambda r: 10)),
                           Panel(105, 5, 0, 20, 1, None, circles(1, chart, lambda r: 0, lambda r: ys.place(r["p"]))),
                           Panel(105, 5, 100, 10, 2, None, circles(2, chart, lambda r: xs.place(r["p"]), lambda r: 5))]
    return Chart(spec, rows, [pick, edge, tall], [[0], [1], [2]], draw, fill, lambda c, s, channel, panel: xs if channel == "x" else ys)


def copies_over():
    """The copies of a facet, of which all but the first have no width: they lie on its edge."""
    pick, tall = Selection("pick", [0], ["_vgsid_"], ["_vgsid_"], True), Selection("tall", [0], drag=(("y", "p"),), clears=True)
    rows = [{"p": 0, "c": "u"}, {"p": 10, "c": "u"}, {"p": 0, "c": "v"}, {"p": 10, "c": "v"}, {"p": 0, "c": "w"}]
    ys = Scale(0, 10, 0, 20)
    tests, fill = any_held("pick", "tall")
    is_u = {"test": "datum.c == 'u'", "value": 100}
    group = {"type": "group", "from": {"facet": {"name": "f", "data": "t", "groupby": ["c"]}},
             "encode": {"update": {"width": [is_u, {"value": 0}], "height": {"value": 20}}}, "marks": [symbol("a", "f", {"scale": "y", "field": "p"}, fills(tests))]}
    group["marks"][0]["encode"]["update"]["x"] = [is_u, {"value": 0}]
    spec = top(rows, [signal(pick), signal(tall, ("y",))], layout={"padding": 0}, scales=[linear("y", [0, 10], [0, 20])], marks=[group])

    def draw(chart):
        panels, left = [], 5
        for cell in dict.fromkeys(r["c"] for r in chart.rows):
            width = 100 if cell == "u" else 0
            items = [Item(0, r["_vgsid_"], r, "circle", (Fraction(width), ys.place(r["p"]))) for r in chart.rows if r["c"] == cell]
            panels.append(Panel(left, 5, width, 20, 0, {"c": cell}, items))
            left += width
        return (left + 5, 30 if panels else 10), panels
    return Chart(spec, rows, [pick, tall], [[0]], draw, fill, lambda c, s, channel, panel: ys)


def bare_beside():
    """A plot of marks, one without marks, one whose mark has no rows, and one whose mark stands in a group without copies."""
    pick, first = Selection("pick", [0, 1, 2], ["_vgsid_"], ["_vgsid_"], True), Selection("first", [0], ["_vgsid_"], ["_vgsid_"], True)
    rows = [{"p": 0}, {"p": 10}]
    xs = Scale(0, 10, 0, 100)
    tests, fill = any_held("pick", "first")
    empty, inner = plot_of("e", {"value": 10}, ON_X, tests=tests), plot_of("i", {"value": 10}, ON_X, tests=tests)
    empty["marks"][0]["from"]["data"] = "none"
    inner["marks"] = [{"type": "group", "from": {"facet": {"name": "f", "data": "none", "groupby": ["p"]}}, "marks": [{**inner["marks"][0], "from": {"data": "f"}}]}]
    bare = {**plot_of("", {}), "marks": []}
    spec = top(rows, [signal(pick), signal(first, marks=["a"])], layout={"padding": 0}, scales=[linear("x", [0, 10], [0, 100])],
               marks=[plot_of("a", {"value": 10}, ON_X, tests=tests), bare, empty, inner, bare])
    spec["data"].append({"name": "none", "source": "t", "transform": [{"type": "filter", "expr": "false"}]})

    def draw(chart):
        panels = [Panel(5 + 100 * at, 5, 100, 20, plot, None, []) for at, plot in enumerate((0, None, 1, 2, None))]
        panels[0].items = circles(0, chart, lambda r: xs.place(r["p"]), lambda r: 10)
        return (510, 30), panels
    return Chart(spec, rows, [pick, first], [[0], [1], [2]], draw, fill, None)


def nested():
    """Two plots one below the other in a grid with a title, and beside that grid a plot."""
    pick, brush = Selection("pick", [0, 1, 2], ["_vgsid_"], ["_vgsid_"], True), Selection("brush", [0, 1, 2], drag=(("x", "p"),), clears=True)
    rows = [{"p": 0}, {"p": 5}, {"p": 10}]
    xs = Scale(0, 10, 0, 100)
    tests, fill = any_held("pick", "brush")
    a, b, c = (plot_of(name, {"value": y}, ON_X, height=height, tests=tests) for name, y, height in (("a", 20, 20), ("b", 0, 20), ("c", 43, 63)))
    spec = top(rows, [signal(pick), signal(brush, ("x",))], layout={"padding": 0}, scales=[linear("x", [0, 10], [0, 100])],
               marks=[{"type": "group", "title": "two", "layout": {"padding": 0, "columns": 1}, "marks": [a, b]}, c])

    def draw(chart):
        items = [circles(at, chart, lambda r: xs.place(r["p"]), lambda r: y) for at, y in enumerate((20, 0, 43))]
        return (210, 73), [Panel(5, 5, 100, 23, None, None, [], "two"), Panel(5, 28, 100, 20, 0, None, items[0]), Panel(5, 48, 100, 20, 1, None, items[1]),
                           Panel(105, 5, 100, 63, 2, None, items[2])]
    return Chart(spec, rows, [pick, brush], [[0], [1], [2]], draw, fill, lambda c, s, channel, panel: xs)


def over_others():
    """Rects of two plots that reach over the plot between them; the last of these encodes an x and a y, which move no plot."""
    pick, brush = Selection("pick", [0, 1, 2], ["_vgsid_"], ["_vgsid_"], True), Selection("brush", [0, 1, 2], drag=(("x", "p"),), clears=True)
    rows = [{"p": 0}, {"p": 10}]
    xs = Scale(0, 10, 0, 100)
    tests, fill = any_held("pick", "brush")
    a, b, c = plot_of("a", {"value": 2}, tests=tests), plot_of("b", {"value": 10}, ON_X, tests=tests), plot_of("c", {"value": 2}, tests=tests)
    for plot, left in ((a, 40), (c, -90)):
        plot["marks"][0]["type"] = "rect"
        plot["marks"][0]["encode"]["update"].update({"x": {"scale": "x", "field": "p", "offset": left}, "width": {"value": 50}, "height": {"value": 16}})
    c["encode"]["update"].update({"x": {"value": -150}, "y": {"value": 7}})
    spec = top(rows, [signal(pick), signal(brush, ("x",))], layout={"padding": 0}, scales=[linear("x", [0, 10], [0, 100])], marks=[a, b, c])

    def draw(chart):
        def rects(unit, left):
            return [Item(unit, r["_vgsid_"], r, "rect", (xs.place(r["p"]) + left, 2, 50, 16)) for r in chart.rows]
        items = [rects(0, 40), circles(1, chart, lambda r: xs.place(r["p"]), lambda r: 10), rects(2, -90)]
        return (310, 30), [Panel(5 + 100 * at, 5, 100, 20, at, None, items[at]) for at in range(3)]
    return Chart(spec, rows, [pick, brush], [[0], [1], [2]], draw, fill, lambda c, s, channel, panel: xs)


def groups_in_a_plot():
    """Copies of a group in one plot, moved over each other and out of it: they are no plots of their own, whatever size they encode."""
    pick, bars, brush = Selection("pick", [0, 1], ["_vgsid_"], ["_vgsid_"], True), Selection("bars", [0], ["_vgsid_"], None, True), Selection("brush", [0, 1], drag=(("x", "p"),), clears=True)
    rows = [{"p": 0, "c": "u"}, {"p": 2, "c": "v"}, {"p": 4, "c": "u"}]
    xs, moved = Scale(0, 10, 0, 100), {"u": 0, "v": 30}
    tests, fill = any_held("pick", "bars", "brush")
    group = {"type": "group", "from": {"facet": {"name": "f", "data": "t", "groupby": ["c"]}},
             "encode": {"update": {"x": [{"test": "datum.c == 'u'", "value": 0}, {"value": 30}], "y": {"value": 2}, "width": {"value": 10}, "height": {"value": 500}}},
             "marks": [{"type": "rect", "name": "bars", "from": {"data": "f"},
                        "encode": {"update": {"x": ON_X, "width": {"value": 50}, "y": {"value": 0}, "height": {"value": 10}, "fill": fills(tests)}}},
                       symbol("dots", "f", {"value": 5}, fills(tests))]}
    spec = top(rows, [signal(pick), signal(bars, marks=["bars"]), signal(brush, ("x",))], width=100, height=20, scales=[linear("x", [0, 10], [0, 100])], marks=[group])

    def draw(chart):
        cells = dict.fromkeys(r["c"] for r in chart.rows)
        in_copies = [r for cell in cells for r in chart.rows if r["c"] == cell]
        items = [Item(0, r["_vgsid_"], r, "rect", (xs.place(r["p"]) + moved[r["c"]], 2, 50, 10)) for r in in_copies]
        items += [Item(1, r["_vgsid_"], r, "circle", (xs.place(r["p"]) + moved[r["c"]], Fraction(7))) for r in in_copies]
        return (110, 30), [Panel(5, 5, 100, 20, 0, None, items)]
    return Chart(spec, rows, [pick, bars, brush], [[0, 1]], draw, fill, lambda c, s, channel, panel: xs)


# ---- scripts: kinds with numbers are events, "remove" takes rows of a cell away, "set" gives a signal a value

SCRIPTS = [
    ("clicks on circles, beside them, and outside the plot", clicks_by_id, [
        ("click", 105, 15), ("shift", 5, 15), ("shift", 105, 15), ("click", 60, 15), ("click", 5, 15), ("click", 45, 16), ("click", 4.9, 15), ("click", 300, 15),
        ("shift", 60, 15), ("shift", 45, 15), ("double", 60, 15), ("double", 60, 15)]),
    ("the edge of a circle holds a point, and a point behind it doesn't", clicks_by_id, [
        ("click", 47.738613, 15), ("click", 47.738614, 15), ("click", 45, 17.738613), ("click", 45, 17.738614), ("click", 46.9, 16.9), ("click", 47, 17)]),
    ("the edges of a plot are in it", clicks_by_id, [("click", 5, 15), ("click", 105, 25), ("click", 5, 15), ("double", 105, 25), ("click", 5, 15), ("double", 105.000001, 25), ("double", 5, 4.999999)]),
    ("an empty store selects nothing where it is asked so", lambda: clicks_by_id(False), [("click", 105, 15), ("double", 105, 15), ("shift", 5, 15), ("shift", 5, 15), ("shift", 45, 15), ("click", 60, 15)]),
    ("clicks that keep a field", clicks_by_field, [("click", 5, 15), ("shift", 45, 15), ("shift", 105, 15), ("shift", 5, 15), ("shift", 105, 15), ("shift", 45, 15), ("double", 5, 5)]),
    ("clicks that keep two fields, in either order", clicks_by_two_fields, [("click", 5, 15), ("shift", 45, 15), ("shift", 5, 15), ("shift", 45, 15), ("click", 105, 15)]),
    ("clicks with the shift key alone", toggles_alone, [("click", 5, 15), ("shift", 5, 15), ("click", 105, 15), ("double", 60, 15), ("shift", 105, 15), ("shift", 5, 15), ("shift", 60, 15)]),
    ("a tuple without fields is held by every row", clicks_without_fields, [("click", 5, 15), ("shift", 45, 15), ("shift", 105, 15), ("click", 60, 15), ("click", 45, 15), ("double", 5, 5)]),
    ("rows that are taken from under a store", clicks_by_id, [("click", 5, 15), ("shift", 45, 15), ("remove", "u"), ("shift", 105, 15), ("click", 5, 15)]),
    ("drags in both directions, from edge to edge and past the plot", drag_along_x, [
        ("drag", 45, 10, 105, 10), ("drag", 105, 10, 45, 10), ("drag", 5, 5, 44.99, 25), ("drag", 5, 5, 45, 25), ("drag", 50, 10, 500, 10), ("drag", 50, 10, -500, 10), ("drag", 50, 10, 50, 300)]),
    ("drags from outside the plot, and with equal ends", drag_along_x, [
        ("drag", 45, 10, 105, 10), ("drag", 4.9, 10, 105, 10), ("drag", 50, 4.9, 20, 10), ("drag", 50, 10, 50, 20), ("drag", 5, 10, 60, 10), ("drag", 105, 10, 300, 10), ("drag", 5, 10, 60, 10), ("double", 5, 10)]),
    ("drags over a range that falls", lambda: drag_along_x((0, 10, 100, 0)), [("drag", 5, 10, 45, 10), ("drag", 105, 10, 55, 10), ("drag", 5, 10, 5.00001, 10), ("drag", 5, 10, 5.000001, 10)]),
    ("drags over a scale that is turned round", turned, [("drag", 5, 10, 45, 10), ("drag", 105, 10, 55, 10)]),
    ("drags past the ends of a range that is less than the plot", lambda: drag_along_x((0, 10, 20, 80)), [("drag", 5, 10, 55, 10), ("drag", 100, 10, 55, 10), ("drag", 5, 10, 20, 10), ("drag", 90, 10, 100, 10), ("drag", 5, 10, 100, 10)]),
    ("a drag over a range of one point", at_one_range, [("drag", 5, 10, 105, 10), ("double", 5, 10)]),
    ("a drag over a domain of one point", at_one_domain, [("drag", 5, 10, 105, 10)]),
    ("drags along both channels", drag_along_both, [
        ("drag", 10, 10, 60, 40), ("drag", 60, 40, 10, 10), ("drag", 5, 5, 105, 55), ("drag", 10, 30, 60, 30), ("drag", 55, 30, 55, 50), ("drag", 50, 55, 60, 45), ("drag", 55, 30, 500, -500), ("double", 5, 5)]),
    ("drags along both channels whose empty store selects nothing", lambda: drag_along_both(False), [("drag", 10, 10, 60, 40), ("drag", 10, 30, 60, 30), ("drag", 10, 10, 30, 54)]),
    ("drags along y", drag_along_y, [("drag", 10, 5, 60, 30), ("drag", 60, 30, 10, 55), ("drag", 60, 45, 60, 50), ("double", 60, 45)]),
    ("drags over instants", drag_of_times, [("drag", 5, 10, 25, 10), ("drag", 5, 10, 24.999, 10), ("drag", 55.5, 10, 105, 10), ("double", 5, 10), ("drag", 5, 10, 5.000001, 10)]),
    ("clicks and drags beside each other", click_and_drag, [("click", 5, 15), ("drag", 45, 10, 60, 10), ("click", 60, 15), ("shift", 105, 15), ("drag", 60, 10, 60, 20), ("drag", 5, 10, 45, 10), ("double", 60, 10)]),
    ("two marks in one plot, and a selection of one of them", layers, [
        ("click", 5, 10), ("click", 5, 20), ("click", 55, 10), ("shift", 105, 20), ("shift", 105, 10), ("shift", 105, 10), ("click", 58, 12), ("click", 80, 10), ("click", 101, 24), ("double", 80, 10)]),
    ("two plots that touch: of a point on both edges the second counts", grid, [
        ("click", 5, 15), ("click", 105, 15), ("click", 104.999999, 15), ("shift", 55, 15), ("click", 130, 15), ("shift", 55, 15), ("double", 80, 15), ("click", 155, 15), ("double", 106, 15)]),
    ("drags in two plots with scales of their own", grid, [("drag", 10, 10, 60, 10), ("drag", 110, 10, 132, 10), ("drag", 60, 10, 180, 10), ("drag", 180, 10, 60, 10), ("drag", 105, 10, 205, 10), ("double", 10, 10)]),
    ("four plots that meet in a corner: of those that hold a point the last counts", crossing, [
        ("click", 105, 25), ("shift", 105, 5), ("shift", 55, 25), ("shift", 155, 25), ("click", 105, 24.999999), ("click", 104.999999, 25), ("click", 104.999999, 24.999999), ("double", 105, 25)]),
    ("drags from edges and corners of four plots: each is cut to the plot in which it begins", crossing, [
        ("drag", 105, 25, 155, 35), ("drag", 105, 25, 55, 5), ("drag", 55, 15, 300, 300), ("drag", 55, 25, 205, 45), ("drag", 105, 5, 55, 45), ("drag", 155, 25, 115, -300), ("drag", 155, 25, 115, 300),
        ("double", 106, 15)]),
    ("plots that lie over each other whole, and apart", folded, [
        ("click", 5, 15), ("shift", 5, 30), ("click", 5, 5), ("drag", 5, 10, 5, 40), ("set", "w", 100), ("click", 5, 5), ("click", 105, 5), ("shift", 104.999999, 5), ("drag", 155, 10, 130, 30),
        ("set", "w", 0), ("drag", 5, 10, 90, 30), ("click", 5.000001, 15), ("double", 5, 55), ("set", "w", 100), ("double", 5, 5)]),
    ("a plot of no width on the edge between two others", between, [
        ("click", 105, 10), ("click", 105, 15), ("click", 105, 25), ("shift", 105, 24), ("click", 104.999999, 15), ("click", 105.000001, 20), ("shift", 105, 24), ("drag", 105, 20, 205, 24),
        ("drag", 105, 12, 150, 25), ("double", 105, 15), ("drag", 105, 25, 0, 15), ("double", 105, 16)]),
    ("copies of a facet over each other, and copies that go", copies_over, [
        ("click", 105, 5), ("click", 105, 25), ("shift", 105, 6), ("drag", 105, 5, 105, 15), ("remove", "w"), ("click", 105, 25), ("drag", 105, 20, 5, 300), ("shift", 105, 5), ("remove", "v"), ("shift", 105, 25),
        ("double", 105, 15)]),
    ("plots without marks hold nothing, and those of marks that aren't drawn do", bare_beside, [
        ("click", 105, 15), ("click", 150, 15), ("double", 205, 15), ("click", 105, 15), ("click", 305, 15), ("shift", 5, 15), ("double", 350, 15), ("shift", 105, 15), ("click", 405, 15), ("click", 405.000001, 15)]),
    ("grids that touch, and a title above one", nested, [
        ("click", 5, 48), ("click", 105, 48), ("click", 104.999999, 48), ("double", 50, 28), ("click", 5, 48), ("double", 50, 27.999999), ("drag", 50, 10, 90, 60), ("drag", 55, 48, 300, 5), ("drag", 105, 28, 130, 10),
        ("drag", 105, 5, 5, 60), ("drag", 30, 28, 80, 90)]),
    ("items that reach over another plot aren't picked there, and x and y of a plot move nothing", over_others, [
        ("click", 60, 15), ("click", 130, 15), ("click", 104, 15), ("click", 105, 15), ("click", 170, 15), ("click", 205, 15), ("click", 204.9, 15), ("click", 225, 15), ("shift", 300, 15), ("drag", 195, 10, 300, 15),
        ("drag", 205, 25, 100, 5), ("drag", 205, 25, 215, 5)]),
    ("groups in a plot that lie over each other", groups_in_a_plot, [
        ("click", 50, 12), ("click", 70, 12), ("click", 45, 12), ("shift", 60, 16), ("click", 12, 20), ("click", 12, 12), ("drag", 45, 12, 65, 300), ("click", 100, 24), ("drag", 100, 24, 10, 5), ("double", 0, 10)]),
    ("clicks in the copies of a facet", facets, [("click", 5, 15), ("shift", 215, 15), ("click", 220, 15), ("click", 105, 45), ("shift", 45, 15), ("click", 110, 15), ("double", 120, 15)]),
    ("drags in the copies of a facet, and a copy that goes", facets, [("drag", 5, 10, 45, 10), ("drag", 215, 10, 300, 10), ("drag", 60, 40, 300, 300), ("drag", 120, 10, 216, 10), ("remove", "v"), ("drag", 10, 10, 60, 10), ("remove", "u"), ("drag", 60, 10, 90, 10)]),
    ("marks that a drag hides", hidden, [("drag", 5, 10, 45, 10), ("drag", 20, 10, 30, 10), ("drag", 50, 10, 105, 10), ("double", 5, 10)]),
    ("marks that a click hides", hidden_by_clicks, [("click", 5, 15), ("shift", 45, 15), ("click", 45, 15), ("click", 105, 15), ("click", 105, 15)]),
    ("a drag that narrows the domain of another plot", narrowed, [("drag", 25, 10, 85, 10), ("drag", 105, 10, 45, 10), ("drag", 60, 10, 60, 12), ("drag", 45, 10, 65, 10), ("drag", 120, 10, 180, 10), ("double", 5, 5)]),
]


def line_of(chart, kind, numbers):
    """The line of a script for an event or a change, which the chart takes."""
    if kind == "set":
        chart.values[numbers[0]] = numbers[1]
        return json.dumps(["set", *numbers])
    if kind == "remove":
        chart.rows = [r for r in chart.rows if r["c"] != numbers[0]]
        return json.dumps(["change", "t", {"remove": f"datum.c == '{numbers[0]}'"}])
    chart.event(kind, *numbers)
    return json.dumps([kind, *numbers])


def case_of(name, make, events):
    chart = make()
    out = [f"=== {name}", "--- s.json", json.dumps(chart.spec), "--- $ chart play s.json"]
    for kind, *numbers in events:
        out += ["> " + line_of(chart, kind, numbers), "ok", '> ["print"]', *chart.picture()]
    return out + [""]


def random_events(chart, seed):
    """Events at places where something begins or ends, just beside these, and anywhere."""
    chosen = random.Random(seed)
    panels = chart.draw(chart)[1]
    xs = [x for p in panels for x in (p.x, p.x + p.width, *(p.x + i.at[0] for i in p.items))]
    ys = [y for p in panels for y in (p.y, p.y + p.height, *(p.y + i.at[1] for i in p.items))]

    def place(edges):
        near = chosen.choice(edges) + Fraction(chosen.choice([0, 0, 0, -1, 1, 1000000, -1500000, 2738613, 2738614]), MILLION)
        return float(near if chosen.random() < 0.8 else Fraction(chosen.randint(-20, 2 * int(max(edges))), chosen.choice([1, 2, 8])))

    for _ in range(chosen.randint(1, 12)):
        kind, at = chosen.choice(["click", "click", "shift", "shift", "double", "drag", "drag", "drag"]), (place(xs), place(ys))
        yield (kind, *at, place(xs), place(ys)) if kind == "drag" else (kind, *at)
        if "w" in chart.values and chosen.random() < 0.2:
            yield "set", "w", chosen.choice([0, 30, 100])
        cells = sorted({r["c"] for r in chart.rows if "c" in r})
        if cells and chosen.random() < 0.1:
            yield "remove", chosen.choice(cells)


def played(program, count, first):
    """Plays random scripts over the charts, each of its own seed, and compares what comes."""
    makers, failed = [make for _, make, _ in SCRIPTS], 0
    with tempfile.TemporaryDirectory(prefix="event_cases-") as room:
        for seed in range(first, first + count):
            chart = makers[seed % len(makers)]()
            lines, wanted = [], []
            for kind, *numbers in random_events(chart, seed):
                lines += [line_of(chart, kind, numbers), '["print"]']
                wanted += ["ok", *chart.picture()]
            with open(f"{room}/s.json", "w") as out:
                json.dump(chart.spec, out)
            ran = subprocess.run([program, "play", "s.json"], cwd=room, input="\n".join(lines) + "\n", capture_output=True, text=True)
            if ran.stdout.splitlines() != wanted:
                failed += 1
                print(f"event_cases: seed {seed}: {json.dumps(chart.spec)}\n" + "\n".join(lines))
    print(f"event_cases: {count - failed} passed, {failed} failed")
    return 1 if failed else 0


def main(words):
    if words:
        return played(os.path.abspath(words[0]), int(words[1]) if len(words) > 1 else 1000, int(words[2]) if len(words) > 2 else 1)
    lines = ["Clicks, shift clicks, double clicks and drags over Vega specifications, each with the picture after it. oracles/event_cases.py writes them, by the", "rules alone.", ""]
    for name, make, events in SCRIPTS:
        lines += case_of(name, make, events)
    with open("cases/vega/events.cases", "w") as out:
        out.write("\n".join(lines))
    print(sum(len(events) for _, _, events in SCRIPTS), "events")
    return 0


if __name__ == "__main__":
    sys.exit(main(sys.argv[1:]))
