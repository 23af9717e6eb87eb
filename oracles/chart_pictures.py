#!/usr/bin/env python3
"""Draws examples that have groups apart from the program, and compares the pictures and replies that are stored beside them.

Usage: oracles/chart_pictures.py [NAME..], at the top of the repository, with examples/x.json for a picture and examples/x for the replies to
x.script; without a word all of SPECS and SCRIPTS. With `-` first they are printed and not compared; with `panels` first a line is printed
for each panel: its place and size, its view, the cells of its facet and how many items it has.

It takes groups with data, signals, scales, axes, legends and titles, facets of several lists, crossed ones and those in facets, layouts, and
groups that draw in the plot round them; of marks, scales and transforms what oracles/mark_pictures.py takes. A copy of a group is drawn with
all that is known round it in one value, and boxes are moved from the inside outward.
"""
import itertools
import json
import re
import sys
from dataclasses import dataclass, field, replace
from fractions import Fraction as F

from guide_table import cut, display, is_number, legend_answer, near, said
from mark_pictures import LACKING, Channels, axes_of, given_rows, items_of, line_of, lines_in, listed, rank, scale_of, transformed, value_of

SPECS = ("months", "shelves", "beds", "crates", "islands", "panels")
SCRIPTS = ("panels", "beds")
CHANNELS = ("fill", "opacity", "shape", "size")
MOST_PANELS = 400
MOST_SIZE = F(10) ** 11


class Panels(Exception):
    """More plots in facets than a chart may have."""


@dataclass(frozen=True)
class Held:
    """A scale with what its object knows, and the spots of faceted copies between that object and where it is used."""

    spec: dict
    lists: dict
    values: dict
    is_of_top: bool = False
    spots: tuple = ()

    def over(self, width, height):
        s = self.spec
        if isinstance(s["domain"], dict) and "signal" in s["domain"]:
            found = value_of(s["domain"]["signal"], {}, self.values)
            s = s | {"domain": list(found) if isinstance(found, tuple) else [] if found is None else [found]}
        return scale_of(s, self.lists, width, height)

    def length(self):
        s = self.over(F(0), F(0))
        return 2 if s.is_continuous() else len(s.domain)


@dataclass(frozen=True)
class Here:
    """What is known in a copy of an object."""

    lists: dict = field(default_factory=dict)
    values: dict = field(default_factory=dict)
    scales: dict = field(default_factory=dict)
    axes: tuple = ()
    cells: tuple = None
    headers: tuple = ()
    width: F = F(0)
    height: F = F(0)
    x: F = F(0)
    y: F = F(0)

    def drawn(self):
        """Its scales in a plot of its size."""
        return {name: held.over(self.width, self.height) for name, held in self.scales.items()}

    def row(self):
        return dict(self.cells or ())

    def sizing(self):
        return self.values | {"length_of": lambda name: self.scales[name].length()}


@dataclass
class Panel:
    width: F
    height: F
    lines: list
    view: int = None
    facet: dict = None
    scales: dict = None


@dataclass
class Box:
    """What stands round a corner: how far it reaches before and behind it, and panels with their places from it."""

    left: F
    top: F
    right: F
    bottom: F
    panels: list
    legends: list
    is_plot: bool


def number_all(spec):
    """Numbers the marks other than groups, and the groups, in the order of the text."""
    units, groups = itertools.count(), itertools.count(1)

    def walk(marks):
        for m in marks:
            if m["type"] == "group":
                m["number"] = next(groups)
                walk(m.get("marks", []))
            else:
                m["unit"] = next(units)

    spec["number"] = 0
    walk(spec.get("marks", []))


def units_in(marks):
    for m in marks:
        yield from units_in(m.get("marks", [])) if m["type"] == "group" else [m["unit"]]


def signals_of(signals, values, given):
    """The values inside an object. Each is read again as often as there are signals, so that one may need a later one."""
    now = values | {s["name"]: given.get(s["name"], s.get("value")) for s in signals}
    for _ in signals:
        now |= {s["name"]: value_of(s["update"], {}, now) for s in signals if "update" in s}
    return now


def entered(o, here, change, given=None):
    """What is known inside an object: its signals, its lists, its scales, each of which hides an outer one of its name."""
    values = signals_of(o.get("signals", []), here.values, given or {})
    lists = dict(here.lists)
    for data in o.get("data", []):
        rows = given_rows(data, lists)
        if "source" not in data:
            rows = change(data["name"], rows)
        for t in data.get("transform", []):
            rows = transformed(t, rows)
        lists[data["name"]] = rows
    own = {s["name"]: Held(s, lists, values, o["number"] == 0) for s in o.get("scales", [])}
    outer = {name: s for name, s in here.scales.items() if name not in own}
    return replace(here, values=values, lists=lists, scales=own | outer)


def cells_in_order(rows, name, entry):
    """The cells of a field: by what the first row with each has in the entry's field, else by these rows."""
    first = {}
    for row in rows:
        first.setdefault(row.get(name), row)
    if entry is None:
        return list(first)
    by, order = entry
    cells = sorted(first, key=rank)
    return sorted(cells, key=lambda c: rank(first[c].get(by)), reverse=order == "descending")


def copies_of(group, here):
    """The copies of a group: the cells of each by their fields, what is known round it, and the columns that its facet asks for."""
    if "from" not in group:
        return [((), here)], None
    facet = group["from"]["facet"]
    fields = facet["groupby"]
    rows = [row for name in listed(facet["data"]) for row in here.lists[name]]
    entries = [None] * len(fields)
    if "sort" in group:
        by = listed(group["sort"]["field"])
        order = group["sort"].get("order", "ascending")
        entries[:len(by)] = zip(by, order if isinstance(order, list) else [order] * len(by))
    cells = [cells_in_order(rows, name, entry) for name, entry in zip(fields, entries)]
    crossed = facet.get("aggregate", {}).get("cross", False)
    if crossed:
        keys = list(itertools.product(*cells))
    else:
        keys = list(dict.fromkeys(tuple(row.get(name) for name in fields) for row in rows))
        if "sort" in group:
            keys.sort(key=lambda key: [cells[i].index(c) for i, c in enumerate(key)])
    copies = []
    for key in keys:
        parts = {name: [row for row in here.lists[of] if tuple(row.get(f) for f in fields) == key]
                 for name, of in zip(listed(facet["name"]), listed(facet["data"]))}
        copies.append((key, replace(here, lists=here.lists | parts, cells=(here.cells or ()) + tuple(zip(fields, key)))))
    return copies, len(cells[1]) if crossed and len(fields) == 2 else None


def headers_of(group, key):
    """The headers of a copy, that of the row before that of the column, each with whether it stands beside the plot."""
    kinds = group["from"]["facet"].get("headers", []) if "from" in group else []
    return tuple((kind == "row", display(cell)) for kind in ("row", "column") for k, cell in zip(kinds, key) if k == kind)


def encoded(o, here, name):
    """The number that a group encodes over the cells of facets, 0 where it has none."""
    found = Channels(o.get("encode", {}), here.drawn(), here.row(), here.sizing()).number(name, F(0))
    return F(0) if found is LACKING else found


def held_axes(o, here):
    return tuple((a, here.scales[a["scale"]]) for a in o.get("axes", []))


def stands(axis, held):
    edge = axis.get("edge")
    return edge is None or all(spot[edge == "first-column"] for spot in held.spots)


def legends_of(o, here):
    for i, g in enumerate(o.get("legends", [])):
        for c, channel in enumerate(CHANNELS):
            if channel in g:
                scale = here.scales[g[channel]].over(here.width, here.height)
                words = legend_answer(scale, "color" if channel == "fill" else channel, g.get("title"), g.get("format"), "#4c78a8", (), {})
                across, down, rest = re.fullmatch(r"(\S+) (\S+) items (.*)", words).groups()
                yield (c, o["number"], i), F(across), F(down), lines_in(rest)


def moved(line, dx, dy):
    """The line of an item, with its places moved."""
    tag, end, rest = line.partition(">")
    by = lambda letter: dx if letter == "x" else dy
    tag = re.sub(r' (c?)([xy])([12]?)="([^"]*)"', lambda m: f' {m[1]}{m[2]}{m[3]}="{said(F(m[4]) + by(m[2]))}"', tag)
    tag = re.sub(r"([ML])([^, ]*),([^ \"]*)", lambda m: f"{m[1]}{said(F(m[2]) + dx)},{said(F(m[3]) + dy)}", tag) if tag.startswith("<path") else tag
    return tag + end + rest


def inside(o, here, change):
    """What a copy draws in the plot round it: axes, legends, and items by their units."""
    axes, legends, items = list(held_axes(o, here)), list(legends_of(o, here)), []
    for m in o.get("marks", []):
        if m["type"] != "group":
            items += [(m["unit"], moved(line, here.x, here.y)) for line in items_of(m, here.lists, here.drawn(), here.width, here.height, here.values)]
            continue
        for _, round_it in copies_of(m, here)[0]:
            copy = entered(m, round_it, change)
            copy = replace(copy, x=here.x + encoded(m, copy, "x"), y=here.y + encoded(m, copy, "y"))
            more = inside(m, copy, change)
            axes, legends, items = axes + more[0], legends + more[1], items + more[2]
    return axes, legends, items


def plot(o, here, change):
    width, height = here.width, here.height
    axes, legends, items = inside(o, here, change)
    shown = [(a, held.over(width, height)) for a, held in (*here.axes, *axes) if stands(a, held)]
    guides, e = axes_of({"axes": [a | {"scale": i} for i, (a, _) in enumerate(shown)]}, {i: s for i, (_, s) in enumerate(shown)}, width, height)
    headers = []
    for beside, words in here.headers:
        if beside:
            place, side = f"{said(-(e['left'] + 5))} {said(near(height / 2))} turned", "left"
        else:
            place, side = f"{said(near(width / 2))} {said(-(e['top'] + 5))} upright", "top"
        headers.append(line_of(f"text {place} middle 10 plain {words} #000 none 1 1"))
        e[side] += 15
    title = []
    if "title" in o:
        title = [line_of(f"text {said(near(width / 2))} {said(-(e['top'] + 10))} upright middle 13 bold {o['title']} #000 none 1 1")]
        e["top"] += 23
    lines = title + headers + guides + [line for _, line in sorted(items, key=lambda item: item[0])]
    panel = Panel(width, height, lines, min(units_in(o.get("marks", [])), default=None), None if here.cells is None else here.row(), here.scales)
    return Box(e["left"], e["top"], width + e["right"], height + e["bottom"], [(F(0), F(0), panel)], legends, True)


def grid(o, here, change):
    found = [(m, *copies_of(m, here)) for m in o.get("marks", [])]
    count = sum(len(copies) for _, copies, _ in found)
    asked = [columns for _, _, columns in found if columns is not None]
    columns = max(1, asked[0] if asked else int(o["layout"].get("columns", count)))
    cells = []
    for m, copies, _ in found:
        for key, round_it in copies:
            at = len(cells)
            if "from" in m:
                spot = (at + columns >= count, at % columns == 0)
                past = lambda held: replace(held, spots=held.spots + (spot,))
                round_it = replace(round_it, scales={n: past(s) for n, s in round_it.scales.items()},
                                   axes=tuple((a, past(s)) for a, s in round_it.axes))
            copy = replace(entered(m, round_it, change), headers=headers_of(m, key) + here.headers)
            cells.append(view(m, copy, change, lambda name: encoded(m, copy, name)))
    spacing = F(o["layout"].get("padding", 20))
    above = F(23) if "title" in o else F(0)
    rows = [cells[i:i + columns] for i in range(0, count, columns)]
    lines = [cells[i::columns] for i in range(min(columns, count))]
    panels, y = [], above
    xs, x = [], F(0)
    for line in lines:
        xs.append(x + max(c.left for c in line))
        x = xs[-1] + max(c.right for c in line) + spacing
    for row in rows:
        y += max(c.top for c in row)
        for at, c in zip(xs, row):
            panels += [(at + dx, y + dy, p) for dx, dy, p in c.panels]
        y += max(c.bottom for c in row) + spacing
    across, down = (x - spacing, y - spacing) if cells else (F(0), above)
    is_plot = any(c.is_plot for c in cells)
    legends = (list(legends_of(o, here)) if is_plot else []) + [g for c in cells for g in c.legends]
    if "title" in o:
        words = line_of(f"text {said(near(across / 2))} 13 upright middle 13 bold {o['title']} #000 none 1 1")
        panels.insert(0, (F(0), F(0), Panel(across, F(23), [words])))
    return Box(F(0), F(0), across, down, panels, legends, is_plot)


def view(o, here, change, size):
    """A copy of an object that is a grid or a plot."""
    if "layout" in o:
        return grid(o, replace(here, axes=here.axes + held_axes(o, here)), change)
    sizes = (max(F(0), min(MOST_SIZE, F(n))) if is_number(n) else F(0) for n in (size("width"), size("height")))
    return plot(o, replace(here, **dict(zip(("width", "height"), sizes))), change)


def panels_of(spec, change=lambda name, rows: rows, given=None):
    """The size of the picture and its panels with their places."""
    number_all(spec)
    here = entered(spec, Here(), change, given)

    def size(name):
        n = spec.get(name)
        return value_of(n["signal"], {}, here.sizing()) if isinstance(n, dict) else n

    content, padding = view(spec, here, change, size), F(spec.get("padding", 5))
    count = sum(p.facet is not None for _, _, p in content.panels)
    if count > MOST_PANELS:
        raise Panels(count)
    panels = [(padding + content.left + x, padding + content.top + y, p) for x, y, p in content.panels]
    across, down = content.left + content.right, content.top + content.bottom
    top, reach, lower = F(0), across, down
    for _, w, h, lines in sorted(content.legends, key=lambda g: g[0]):
        panels.append((padding + across + 18, padding + top, Panel(w, h, lines)))
        reach, lower, top = max(reach, across + 18 + w), max(lower, top + h), top + h + 18
    return reach + 2 * padding, lower + 2 * padding, panels


def picture_of(spec, *more):
    width, height, panels = panels_of(spec, *more)
    size = said(width), said(height)
    out = [f'<svg xmlns="http://www.w3.org/2000/svg" version="1.1" width="{size[0]}" height="{size[1]}" viewBox="0 0 {size[0]} {size[1]}">']
    for x, y, p in panels:
        out += [f'<g transform="translate({said(cut(x))},{said(cut(y))})">', *p.lines, "</g>"]
    return "\n".join(out + ["</svg>", ""])


def table_of(spec, *more):
    """A line for each panel."""
    _, _, panels = panels_of(spec, *more)
    for i, (x, y, p) in enumerate(panels):
        facet = "none" if p.facet is None else " ".join(f"{name}={display(cell)}" for name, cell in sorted(p.facet.items())) or "nothing"
        yield f"{i} at {said(x)} {said(y)}, {said(p.width)} by {said(p.height)}, view {'none' if p.view is None else p.view}, facet {facet}, {len(p.lines)} items"


def replies_of(spec, script):
    """The replies to lines that insert and remove rows, set signals and print. What can't be drawn is taken back."""
    out, changes, given = [], [], {}

    def change(name, rows):
        for source, made in changes:
            rows = made(rows) if source == name else rows
        return rows

    for line in script.splitlines():
        if not line or line.startswith("#"):
            continue
        words = json.loads(line, parse_float=F, parse_int=F)
        if words == ["print"]:
            out.append(picture_of(spec, change, given))
            continue
        before = list(changes), dict(given)
        if words[0] == "set":
            given[words[1]] = words[2]
        else:
            _, source, c = words
            assert c.keys() <= {"remove", "insert"}
            changes.append((source, lambda rows, c=c: [row for row in rows if "remove" not in c or not value_of(c["remove"], row)] + c.get("insert", [])))
        try:
            picture_of(spec, change, given)
            out.append("ok\n")
        except Panels:
            changes, given = before
            out.append("refused limit\n")
    return "".join(out)


def main(words):
    """Compares or prints; a name without `.json` is that of an example's replies."""
    first = words[0] if words[:1] in (["-"], ["panels"]) else None
    names = words[1 if first else 0:] or [f"examples/{name}.json" for name in SPECS] + [f"examples/{name}" for name in SCRIPTS]
    wrong = []
    for name in names:
        start = name.removesuffix(".json")
        with open(start + ".json") as file:
            spec = json.load(file, parse_float=F, parse_int=F)
        if first == "panels":
            print(*table_of(spec), sep="\n")
            continue
        if name != start:
            stored, answer = start + ".svg", picture_of(spec)
        else:
            with open(start + ".script") as file:
                stored, answer = start + ".replies", replies_of(spec, file.read())
        if first:
            print(answer, end="")
            continue
        with open(stored) as file:
            if file.read() != answer:
                wrong.append(stored)
    for stored in wrong:
        print(f"chart_pictures: {stored} differs", file=sys.stderr)
    return 1 if wrong else 0


if __name__ == "__main__":
    sys.exit(main(sys.argv[1:]))
