#!/usr/bin/env python3
"""Writes the table of whole charts: what is expected, a tab, and a Vega specification on one line.

Expected are for each panel its place and size, its view and the cells of its facet, then the scales that are kept, and then the picture,
with a bar in place of each line feed; or why there is none. Charts are drawn by oracles/chart_pictures.py; what is out of range is said here.
Of each specification of cases/vega/faults.cases that has no fault it is expected that it is drawn. The stores of all selections are empty: what is
expected of a specification with selections is the picture of another that has none.

Usage: oracles/chart_table.py > crates/chart_table/stdin, at the top of the repository
"""
import json
import random
from fractions import Fraction as F

import chart_pictures
from chart_pictures import picture_of, panels_of
from guide_table import said

SCHEMA = "https://vega.github.io/schema/vega/v5.json"
LARGE = 10 ** 15
FIELDS = {"a": ("x", "y", "z"), "b": ("p", "q"), "c": (1, 2, 3), "v": (5, 10, -3, 40, 0), "d": ("x", 1)}
MOST_COPIES = 60


class TooLarge(Exception):
    pass


def read(text):
    return json.loads(text, parse_float=F, parse_int=F)


def with_marks_last(o):
    """An object with its marks behind the data that they name."""
    others = {name: value for name, value in o.items() if name != "marks"}
    return others | ({"marks": [with_marks_last(m) for m in o["marks"]]} if "marks" in o else {})


def text_of(spec):
    return json.dumps(with_marks_last(spec), separators=(",", ":"))


def word(cell):
    if cell is None:
        return "_"
    return "s" + cell if isinstance(cell, str) else "n" + said(cell)


def of_chart(spec, scale):
    """Whether a scale of the top belongs to the whole chart."""
    return "layout" not in spec or scale["range"] not in ("width", "height")


def said_all(numbers):
    return " ".join(map(said, numbers))


def scale_words(s):
    """The kind of a scale, its domain, its range and its paddings."""
    cells = lambda list_: "".join(word(c) + "," for c in list_)
    n = list(s.n)
    if s.kind in ("linear", "time"):
        parts = [said_all(n[:2]), said_all(n[2:])]
    elif s.kind == "band":
        parts = [cells(s.domain), said_all(n[2:]), said_all(n[:2])]
    elif s.kind == "point":
        parts = [cells(s.domain), said_all(n[2:]), said(n[1])]
    elif s.kind == "ordinal":
        parts = [cells(s.domain), cells(s.range)]
    else:
        parts = [said_all(n[:2])]
    return s.kind + ":" + "".join(p + ":" for p in parts)


def kept_scales(spec, panels):
    """The scales: the names of those of the whole chart, and those of each plot, its own before outer ones."""
    yield from (s["name"] for s in spec.get("scales", []) if of_chart(spec, s))
    for i, (_, _, p) in enumerate(panels):
        for name, held in (p.scales or {}).items():
            if not (held.is_of_top and of_chart(spec, held.spec)):
                yield f"{i} {name} {scale_words(held.over(p.width, p.height))}"


def expected(text):
    spec = read(text)
    try:
        _, _, panels = panels_of(spec)
    except chart_pictures.Panels as why:
        return f"panels {why}"
    words = ""
    for x, y, p in panels:
        cells = " -" if p.facet is None else "".join(f" {name}={word(cell)}" for name, cell in sorted(p.facet.items()))
        words += f"{said_all((x, y, p.width, p.height))} {'-' if p.view is None else p.view}{cells};"
    scales = "".join(s + ";" for s in kept_scales(spec, panels))
    return words + "#" + scales + "#" + picture_of(read(text)).replace("\n", "|") + "|"


class Chance:
    """Specifications by chance."""

    def __init__(self, seed):
        self.chance, self.count, self.marks = random.Random(seed), 0, 0

    def pick(self, *among):
        return self.chance.choice(among)

    def maybe(self, share=0.5):
        return self.chance.random() < share

    def name(self, start):
        self.count += 1
        return f"{start}{self.count}"

    def rows(self, count):
        return [{f: self.pick(*cells) for f, cells in FIELDS.items() if self.maybe(0.93)} for _ in range(count)]

    def scale(self, lists, taken):
        name = self.pick("x", "y", "col", "sz", self.name("s"))
        if name in taken:
            return None
        type_ = {"x": "band", "y": "linear", "col": "ordinal", "sz": "linear"}.get(name) or self.pick("band", "linear", "point")
        data, of = self.pick(*lists), self.pick("a", "b", "c", "v")
        domain = {"data": data, "field": of}
        if type_ != "linear":
            way = self.pick("", "", "sort", "list", "fields")
            if way == "sort":
                domain["sort"] = True
            elif way == "list":
                domain = ["x", "y", "p"]
            elif way == "fields":
                domain = {"fields": [domain, {"data": self.pick(*lists), "field": "b"}]}
        sized = {"x": "width", "y": "height", "col": "category", "sz": [0, 100]}.get(name) or self.pick("width", "height", [0, 50])
        s = {"name": name, "type": type_, "domain": domain, "range": sized}
        for member in ("zero", "nice") if type_ == "linear" else ("padding",) if type_ != "ordinal" else ():
            if self.maybe(0.4):
                s[member] = 0.25 if member == "padding" else True
            elif member == "zero":
                s[member] = False
        if s.get("zero") and self.count % 2:
            del s["zero"]
        if type_ == "ordinal" and self.count % 3 == 0:
            s["reverse"] = True
        return s

    def axis(self, scales):
        a = {"scale": self.pick(*scales), "orient": self.pick("left", "right", "top", "bottom")}
        for member, value, share in (("edge", self.pick("last-row", "first-column"), 0.6), ("title", "t" + a["scale"], 0.4), ("grid", True, 0.2),
                                     ("labels", False, 0.4), ("ticks", False, 0.4), ("labelAngle", 270, 0.2)):
            if self.maybe(share):
                a[member] = value
        return a

    def legend(self, scales):
        g = {channel: self.pick(*scales) for channel in ("fill", "size", "shape", "opacity") if self.maybe(0.4)}
        return g | ({"title": "leg"} if self.maybe() else {})

    def place(self, scales, signals):
        way = self.chance.random()
        if scales and way < 0.6:
            return {"scale": self.pick(*scales), "field": self.pick("a", "b", "c", "v")} | ({"band": 0.5} if self.maybe(0.2) else {})
        if signals and way > 0.9:
            return {"signal": self.pick(*signals) + " * 3"}
        return {"field": self.pick("c", "v")} if way < 0.8 else {"value": self.pick(0, 4, 10)}

    def mark(self, lists, scales, signals):
        self.marks += 1
        type_, placed = self.pick("rect", "symbol", "text", "rule", "line"), [n for n, s in scales.items() if s["type"] != "ordinal"]
        e = {"x": self.place(placed, signals), "y": self.place(placed, signals)}
        e |= {"rect": {"width": {"value": 5}, "y2": {"value": 20}}, "text": {"text": {"field": "a"}}}.get(type_, {})
        if type_ in ("line", "rule"):
            e["stroke"] = {"value": "red"}
        else:
            e["fill"] = {"scale": "col", "field": "a"} if "col" in scales and self.maybe() else {"value": "gray"}
        m = {"type": type_, "from": {"data": self.pick(*lists)}, "encode": {self.pick("enter", "update"): e}}
        return m | ({"sort": {"field": self.pick("v", "c"), "order": self.pick("ascending", "descending")}} if self.maybe(0.3) else {})

    def fill(self, o, lists, scales, signals, depth):
        """Gives an object its data, signals, scales, axes, legends, title and marks."""
        lists, scales, signals = list(lists), dict(scales), list(signals)
        if self.maybe(0.3):
            name = self.pick("k", self.name("g"))
            others = [s for s in signals if s != name]
            o["signals"] = [{"name": name, "update": self.pick(*others) + " + 1"} if others and self.maybe() else {"name": name, "value": self.pick(1, 2, 7)}]
            signals.append(name)
        if self.maybe(0.25):
            own = {"name": self.name("w"), "values": self.rows(self.pick(0, 1, 2))} if self.maybe() else {"name": self.pick(*lists), "source": self.pick(*lists)}
            o["data"] = [own]
            lists.append(own["name"])
        own = {}
        for _ in range(self.pick(0, 1, 2, 3)):
            s = self.scale(lists, own)
            if s:
                own[s["name"]] = s
        if own:
            o["scales"], scales = list(own.values()), scales | own
        placed = [n for n, s in scales.items() if s["type"] != "ordinal"]
        if placed and self.maybe(0.6):
            o["axes"] = [self.axis(placed) for _ in range(self.pick(1, 2))]
        shown = [n for n, s in scales.items() if "layout" not in o or s["range"] not in ("width", "height")]
        if shown and self.maybe(0.3):
            o["legends"] = [self.legend(shown)]
        if self.maybe(0.3):
            o["title"] = self.pick("Title", "another")
        inside = lists, scales, signals
        if "layout" in o:
            o["marks"] = [self.group(*inside, True, depth + 1) for _ in range(self.pick(0, 1, 1, 2, 3))]
        else:
            o["marks"] = []
            for _ in range(self.pick(0, 1, 2, 2, 3)):
                if depth < 3 and self.maybe(0.35):
                    o["marks"].append(self.group(*inside, False, depth + 1))
                elif self.marks < 25:
                    o["marks"].append(self.mark(*inside))

    def facet(self, lists):
        fields = self.pick([], ["a", "a"]) if self.maybe(0.05) else self.chance.sample(["a", "b", "c"], self.pick(1, 1, 1, 2, 2, 3))
        f = {"name": self.pick(self.name("p"), *lists), "data": self.pick(*lists), "groupby": fields}
        if self.maybe(0.2):
            f |= {"name": [self.name("p"), self.name("p")], "data": [self.pick(*lists), self.pick(*lists)]}
        if self.maybe(0.35):
            f["aggregate"] = {"cross": True}
        if self.maybe(0.6):
            kinds = self.chance.sample(["row", "column"], 2)
            f["headers"] = [kinds.pop() if kinds and self.maybe(0.7) else None for _ in fields]
        return f

    def size(self, n, scales, signals):
        way = self.chance.random()
        if way < 0.15 and signals:
            return {"signal": self.pick(*signals) + " * 10"}
        if way < 0.3:
            return {"field": self.pick("c", "a")}
        if way < 0.4 and scales:
            return {"signal": f"domain('{self.pick(*scales)}').length * 9"}
        if way < 0.5:
            return [{"test": "datum.a == 'x'", "value": n}, {"value": n + 7}]
        return {"value": n}

    def group(self, lists, scales, signals, under, depth):
        g = {"type": "group"}
        if self.maybe(0.55):
            f = self.facet(lists)
            g["from"] = {"facet": f}
            lists = lists + (f["name"] if isinstance(f["name"], list) else [f["name"]])
            if self.maybe(0.4):
                count = max(1, self.chance.randint(0, len(f["groupby"])))
                g["sort"] = {"field": [self.pick("v", "c", "a") for _ in range(count)]}
                if self.maybe(0.7):
                    g["sort"]["order"] = [self.pick("ascending", "descending") for _ in range(count)]
        if under and depth < 3 and self.maybe(0.35):
            g["layout"] = self.layout()
        if self.maybe(0.9):
            names = ("width", "height") if under else ("x", "y")
            g["encode"] = {"update": {name: self.size(n, scales if under else (), signals) for name, n in zip(names, (30, 20))}}
        self.fill(g, lists, scales, signals, depth)
        return g

    def layout(self):
        chosen = {"columns": self.pick(1, 2, 3), "padding": self.pick(0, 5, 33)}
        return {name: chosen[name] for name in chosen if self.maybe(0.6)}

    def top(self):
        g = {"$schema": SCHEMA}
        if self.maybe(0.8):
            g["layout"] = self.layout()
        else:
            g |= {"width": self.pick(100, {"signal": "k * 20"}), "height": 60}
        self.fill(g, ["t", "u"], {}, ["k"], 0)
        own = [s for s in g.get("signals", []) if s["name"] != "k"]
        g["signals"] = [{"name": "k", "value": 4}] + own
        lists = [{"name": "t", "values": self.rows(self.chance.randint(0, 5))}, {"name": "u", "values": self.rows(self.chance.randint(0, 3))}]
        g["data"] = lists + [d for d in g.get("data", []) if d["name"] not in ("t", "u")]
        return g


def by_chance(count):
    """So many specifications that show something: plots in facets or groups in a plot, and not too much of it."""
    seed = 0
    while count:
        seed += 1
        text = text_of(Chance(seed).top())
        COPIES[0] = 0
        try:
            line = expected(text)
        except TooLarge:
            continue
        panels = sum(not p.endswith(" -") for p in line.split("#", 1)[0].split(";")[:-1])
        if 390 < len(line) < 4000 and panels <= 12 and (panels > 1 or seed % 3 == 0):
            count -= 1
            yield line + "\t" + text


COPIES = [0]
FIRST_ENTERED = chart_pictures.entered


def entered(*arguments):
    COPIES[0] += 1
    if COPIES[0] > MOST_COPIES:
        raise TooLarge
    return FIRST_ENTERED(*arguments)


def dots(of, *marks, **members):
    """A group whose marks are dots of a list, and these."""
    dot = {"type": "symbol", "from": {"data": of}, "encode": {"update": {"x": {"field": "v"}, "y": {"value": 4}, "fill": {"value": "red"}}}}
    return {"type": "group", "marks": [dot, *marks]} | members


def parts(name, of, *fields, cross=False, **members):
    """What divides lists by these fields."""
    return {"facet": {"name": name, "data": of, "groupby": list(fields)} | ({"aggregate": {"cross": True}} if cross else {}) | members}


def sized(width, height):
    return {"update": {"width": {"value": width}, "height": {"value": height}}}


def scaled(name, over, range_):
    return {"name": name, "type": "linear", "domain": over, "range": range_}


def edged(scale, orient, edge):
    return {"scale": scale, "orient": orient, "edge": edge, "title": f"{scale} {edge}", "labels": False, "ticks": False, "domain": False}


def told():
    """Specifications that show a rule each."""
    rows = [{"a": a, "b": b, "v": v} for a, b, v in (("A", "p", 1), ("A", "q", 2), ("A", "r", 3), ("B", "q", 4), ("C", "r", 5), ("B", "p", 6))]
    top = {"$schema": SCHEMA, "layout": {}, "data": [{"name": "t", "values": rows}]}
    size = {"encode": sized(20, 10)}
    # facets in facets, with axes at both edges of both grids
    inner = dots("q", **size, **{"from": parts("q", "p", "b", headers=["column"])})
    outer = {"type": "group", "from": parts("p", "t", "a", headers=["row"]), "layout": {"columns": 2}, "scales": [scaled("y", [0, 9], "height")],
             "axes": [edged("y", "bottom", "last-row"), edged("y", "left", "first-column")], "marks": [inner]}
    yield top | {"layout": {"columns": 2}, "scales": [scaled("x", [0, 9], "width")],
                 "axes": [edged("x", "bottom", "last-row"), edged("x", "left", "first-column")], "marks": [outer]}
    # pairs of which there is no row
    crossed = dots("p", **size, **{"from": parts("p", "t", "a", "b", cross=True, headers=["row", "column"])})
    yield top | {"scales": [scaled("x", {"data": "t", "field": "v"}, "width")], "axes": [edged("x", "top", "first-column")],
                 "marks": [crossed | {"scales": [scaled("y", {"data": "p", "field": "v"}, "height")]}]}
    yield top | {"layout": {"columns": 4}, "marks": [crossed | {"sort": {"field": ["v", "b"], "order": ["descending"] * 2}}]}
    yield top | {"marks": [dots("p", **size, **{"from": parts("p", "t", "a", "b", headers=["column", None]), "sort": {"field": "a"}})]}
    # of cells of one field the later counts, and that of the inner facet
    yield top | {"marks": [dots("p", **size, **{"from": parts("p", "t", "b", "b", cross=True)})]}
    both = {"type": "group", "from": parts("p", "t", "a", "b"), "layout": {}, "marks": [dots("p", **size, **{"from": parts("q", "t", "b")})]}
    yield top | {"marks": [both]}
    # the view is the least number of the marks of a plot and of the groups in it
    empty = {"type": "group", **size}
    holding = {"type": "group", **size, "marks": [{"type": "group"}, dots("t", dots("t"))]}
    yield top | {"marks": [empty, holding, dots("t", **size, **{"from": parts("p", "t", "a", headers=["row"])})]}
    # a scale stands for each plot that sees it
    own = [scaled("x", [0, 1], [0, 5])]
    seen = [dots("t", **size), dots("t", **size, scales=own), {"type": "group", "layout": {}, "scales": own, "marks": [dots("t", **size)]},
            dots("t", {"type": "group", "scales": own}, **size)]
    yield top | {"scales": [scaled("x", [0, 9], "width"), scaled("z", [0, 9], [0, 7])], "marks": seen}
    # two lists
    lists = [*top["data"], {"name": "u", "values": [{"a": "D", "v": 9}, {"a": "B", "v": 8}]}]
    yield top | {"data": lists, "marks": [dots("p", *dots("q")["marks"], **size, **{"from": parts(["p", "q"], ["u", "t"], "a", headers=["column"])})]}
    yield faceted(400)


def faceted(count, marks=(), data=(), **members):
    """A facet of so many cells, its symbol with these members."""
    symbol = {"type": "symbol", "from": {"data": "p"}, "encode": {"update": {"fill": {"value": "red"}}}}
    group = {"type": "group", "from": parts("p", "t", "c"), "marks": [symbol]}
    rows = [{"c": i, "w": LARGE} if data or count < 9 else {"c": i} for i in range(count)]
    return {"$schema": SCHEMA, "layout": {}, "data": [{"name": "t", "values": rows}, *data], "marks": [group | dict(marks)], **members}


def stopped():
    """Specifications that aren't drawn, with why, and what is drawn beside them."""
    lost = [{"name": "k", "update": f"{LARGE} + 1"}]
    plots = [{"type": "group"}] * 3
    axis = {"scale": "s", "orient": "bottom", "tickCount": 1}
    wide = [{"name": "s", "type": "linear", "domain": [-LARGE, LARGE], "range": "width"}]
    summed = [{"name": "s", "type": "band", "range": "width", "domain": {"data": "p", "field": "d", "sort": {"op": "sum", "field": "w"}}}]
    far = {"type": "group", "encode": {"update": {"x": {"value": LARGE}}}}
    yield "panels 401", faceted(401)
    yield "panels 402", faceted(134, {"layout": {}, "marks": plots}.items())
    yield "panels 401", faceted(401, signals=lost)
    yield "overflow", faceted(401, signals=lost, data=[{"name": "u", "source": "t", "transform": [{"type": "filter", "expr": "true || k > 1"}]}])
    yield "overflow", faceted(401, data=[{"name": "u", "source": "t", "transform": [{"type": "formula", "expr": "datum.w * 2", "as": "x"}]}])
    yield "overflow", faceted(1, signals=lost)
    yield "overflow", faceted(1, {"signals": lost}.items())
    yield None, faceted(0, {"signals": lost}.items())
    yield "overflow", faceted(1, scales=wide, axes=[axis])
    yield "overflow", faceted(1, scales=wide, axes=[axis | {"edge": "last-row"}])
    yield None, faceted(0, scales=wide, axes=[axis])
    under = faceted(1, {"axes": [axis | {"edge": "last-row"}]}.items(), scales=wide)
    yield None, under | {"layout": {"columns": 1}, "marks": [*under["marks"], *plots[:1]]}
    yield None, faceted(2, {"scales": summed}.items())
    yield "overflow", faceted(2, {"scales": summed, "from": {"facet": {"name": "p", "data": "t", "groupby": []}}}.items())
    yield None, {"$schema": SCHEMA, "width": 10, "height": 10, "marks": [far]}
    yield "overflow", {"$schema": SCHEMA, "width": 10, "height": 10, "marks": [far | {"marks": [far]}]}
    yield None, {"$schema": SCHEMA, "layout": {}, "marks": [far | {"marks": [far | {"encode": {}}]}]}


def selections():
    """Specifications with selections that hold nothing, each with one without selections that shows the same."""
    rows = [{"v": 1, "c": "A"}, {"v": 3, "c": "A"}, {"v": 2, "c": "B"}]
    pick = {"name": "pick", "on": [{"events": "click", "update": "vlPoint('pick', 'v')"}, {"events": "dblclick", "update": "vlClear('pick')"}]}
    drag = {"name": "drag", "on": [{"events": "[mousedown, mouseup] > mousemove", "update": "vlInterval('drag', 'x', 's', 'v')"}]}
    signals = {"signals": [pick, drag]}
    raw = {"domainRaw": {"signal": "drag.x"}}
    empty, held = "length(data('pick_store')) == 0", "vlSelectionTest('pick_store', datum)"
    top = {"$schema": SCHEMA, "data": [{"name": "t", "values": rows}]}
    plot = top | {"width": 10, "height": 10}

    def dot(of, y, fill, **members):
        channels = {"x": {"scale": "s", "field": "v"}, "y": y, "fill": fill} | members
        return {"type": "symbol", "from": {"data": of}, "encode": {"update": channels}}

    def paint(test):
        return [{"test": test, "value": "red"}, {"value": "gray"}]

    four, red, gray = {"value": 4}, {"value": "red"}, {"value": "gray"}
    number = {"name": "n", "update": "length(data('pick_store')) + 4"}
    over = scaled("s", [0, 10], "width")
    tested = [dot("t", four, paint(f"{empty} || {held}")), dot("t", four, paint(held)), dot("t", four, paint(f"!{held}"))]
    # a store without tuples has no length, and holds no row; a brush without ends leaves the domain as it is
    yield plot | signals | {"scales": [over | raw], "marks": tested}, plot | {"scales": [over], "marks": [dot("t", four, f) for f in (red, gray, red)]}
    # the same in each copy of a group, where a signal counts the tuples
    parted = {"type": "group", "encode": sized(10, 10), "from": parts("p", "t", "c")}
    own = scaled("s", {"data": "p", "field": "v"}, "width")
    copies = parted | {"signals": [number], "scales": [own | raw], "marks": [dot("p", {"signal": "n"}, paint(held))]}
    yield top | signals | {"layout": {}, "marks": [copies]}, top | {"layout": {}, "marks": [parted | {"scales": [own], "marks": [dot("p", four, gray)]}]}
    # a signal of a group hides a selection of its name, and has a value
    hidden = parted | {"signals": [{"name": "pick", "value": 4}], "scales": [own], "marks": [dot("p", {"signal": "pick"}, red)]}
    yield top | signals | {"layout": {}, "marks": [hidden]}, top | {"layout": {}, "marks": [parted | {"scales": [own], "marks": [dot("p", four, red)]}]}
    # a filter keeps no row that a store without tuples holds
    kept = [{"name": n, "source": "t", "transform": [{"type": "filter", "expr": e}]} for n, e in (("u", held), ("w", f"!{held}"))]
    drawn = {"scales": [over], "marks": [dot("u", four, red), dot("w", four, gray)]}
    others = [kept[0] | {"transform": [{"type": "filter", "expr": "datum.v > 9"}]}, {"name": "w", "source": "t"}]
    yield plot | signals | drawn | {"data": top["data"] + kept}, plot | drawn | {"data": top["data"] + others}


def accepted():
    """Specifications without fault, all of which are drawn."""
    with open("cases/vega/faults.cases", encoding="utf-8") as file:
        rows = file.read().split("\n")
    for typed, answer in zip(rows, rows[1:]):
        if typed.startswith("> ") and answer == "ok":
            yield typed[2:]


def main():
    for text in accepted():
        print("drawn\t" + text)
    for spec, same in selections():
        print(expected(text_of(same)) + "\t" + text_of(spec))
    for why, spec in stopped():
        text = text_of(spec)
        print((why or expected(text)) + "\t" + text)
    for spec in told():
        text = text_of(spec)
        print(expected(text) + "\t" + text)
    chart_pictures.entered = entered
    for line in by_chance(100):
        print(line)


if __name__ == "__main__":
    main()
