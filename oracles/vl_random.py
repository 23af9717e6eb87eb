#!/usr/bin/env python3
"""Makes small Vega-Lite specifications at random: marks, channels, types, bins, units of time, aggregates, stacks, sorts, scales, guides, facets,
layers and joined views, each over a few rows of its own.

Usage: oracles/vl_random.py [--sorts] FOLDER FIRST COUNT; writes FOLDER/N.json for each seed N from FIRST on, and beside it as N.picture what
oracles/vl_pictures.py draws of it. With `--sorts` most discrete cells stand in an order by rows, some in facets and layers that share it, of fields that have
the very names which aggregates and stacks give.
"""
import json
import os
import random
import sys
from fractions import Fraction as F

from vl_pictures import answer_of

MARKS = ("bar", "bar", "bar", "rect", "point", "circle", "square", "line", "line", "area", "area", "tick", "rule", "text")
OPS = ("sum", "sum", "mean", "average", "min", "max", "median", "q1", "q3", "valid", "missing", "distinct")
UNITS = ("year", "yearmonth", "month", "yearquarter", "yearmonthdate", "date", "day", "hours", "utcyear", "utcmonth")
CLASHES = ("sum_b", "mean_c", "max_b", "min_c", "__count", "b_end", "c_start", "c_end", "sum_b_end", "sum_c_start", "__count_end")
DATES = ("2020-01-05", "2020-02-29", "2021-03-01T10:30", "2021-03-01", "2022", "2020/07/14", "Mar 3 2020")


class Maker:
    def __init__(self, seed):
        self.r = random.Random(seed)
        self.with_large = self.may(0.04)
        self.selections = ["k"]

    def may(self, p):
        return self.r.random() < p

    def one(self, *of):
        return self.r.choice(of)

    # ---- rows

    def rows(self):
        made = []
        for _ in range(self.one(0, 1, 2, 3, 4, 5, 6, 7)):
            row = {}
            if self.may(0.9):
                row["a"] = self.one("u", "v", "w", "w", None, 7)
            if self.may(0.92):
                row["b"] = self.one(*range(-4, 10), 2.5, 0.125, None, "v", *([900000000000000] if self.with_large else []))
            if self.may(0.95):
                row["c"] = self.r.randint(0, 30)
            if self.may(0.9):
                row["g"] = self.one("p", "q", "q", None)
            if self.may(0.9):
                row["h"] = self.one(5, 2, True)
            if self.may(0.9):
                row["t"] = self.one(*DATES, "late", None, 1500000000000)
            made.append(row)
        return made

    # ---- definitions

    def discrete(self):
        d = {"field": self.one("a", "g", "h")}
        if self.may(0.6):
            d["type"] = self.one("nominal", "ordinal")
        return d

    def number(self):
        return {"field": self.one("b", "c"), "type": "quantitative"}

    def aggregate(self):
        d = {"aggregate": "count"} if self.may(0.35) else {"aggregate": self.one(*OPS), "field": self.one("b", "c")}
        return d | ({"type": "quantitative"} if self.may(0.3) else {})

    def binned(self):
        d = {"field": self.one("b", "c"), "bin": self.one(True, True, {"maxbins": 4}, {"step": 3}, {"maxbins": 20})}
        return d | ({"type": self.one("quantitative", "ordinal")} if self.may(0.4) else {})

    def in_time(self):
        d = {"field": "t", "timeUnit": self.one(*UNITS)}
        return d | ({"type": self.one("temporal", "ordinal", "nominal")} if self.may(0.4) else {})

    def temporal(self):
        return {"field": "t", "type": "temporal"}

    def sorted(self, d):
        if self.may(0.3):
            d["sort"] = self.one(None, "ascending", "descending", ["w", "u", 3], "x", "-y", "y", "-x", {"field": "b", "op": "sum"},
                                 {"field": "c", "op": "mean", "order": "descending"}, {"op": "count", "order": "descending"}, {"field": "c"})
        return d

    def is_continuous(self, d):
        kind = d.get("type") or ("quantitative" if "aggregate" in d or d.get("bin") else "temporal" if "timeUnit" in d else "nominal")
        return kind in ("quantitative", "temporal")

    def axis(self, channel):
        return self.one(None, None, {"title": self.one("A", "B & C", None)}, {"grid": self.may(0.5)}, {"ticks": False}, {"labels": False}, {"domain": False},
                        {"orient": self.one("top", "bottom") if channel == "x" else self.one("left", "right")}, {"tickCount": self.one(3, 7)},
                        {"labelAngle": self.one(0, -90, 270)}, {"format": self.one(".1f", ",d", "%")})

    def scale(self, channel, d):
        s = {}
        if self.is_continuous(d):
            if self.may(0.4):
                s["zero"] = self.may(0.5)
            if self.may(0.4):
                s["nice"] = self.may(0.5)
            if self.may(0.25) and "t" != d.get("field"):
                s["domain"] = self.one([0, 5], [-3, 12], [4, 1, 9], [])
            if channel != "color" and self.may(0.1):
                s["range"] = self.one([10, 90], [150, 5])
        else:
            if self.may(0.25):
                s["domain"] = self.one(["u", "v"], ["w", "p", None, "q", "u"], [1, "u"])
            if channel in ("x", "y"):
                if self.may(0.3):
                    s["type"] = self.one("band", "point")
                for name in ("padding", "paddingInner", "paddingOuter"):
                    if self.may(0.15):
                        s[name] = self.one(0, 0.25, 0.5, 1)
            elif channel == "color" and self.may(0.3):
                s[self.one("range")] = self.one(["red", "blue"], ["#111", "#222", "#333"])
            elif channel == "color" and self.may(0.3):
                s["scheme"] = self.one("blues", "tableau10")
            elif channel == "opacity" and self.may(0.3):
                s["type"] = self.one("ordinal", "point")
        if self.may(0.25):
            s["reverse"] = self.may(0.7)
        return s

    def place(self, channel):
        if self.may(0.04):
            return {"value": self.one(5, 33.5)}
        if self.may(0.04):
            return self.one({"datum": 3, "type": "quantitative"}, {"datum": "u"}, {"datum": "u", "type": "nominal"})
        d = self.one(self.discrete, self.discrete, self.number, self.number, self.aggregate, self.aggregate, self.binned, self.in_time, self.temporal)()
        if not self.is_continuous(d):
            d = self.sorted(d)
        if self.may(0.3):
            d["scale"] = self.scale(channel, d)
        if self.may(0.35):
            d["axis"] = self.axis(channel)
        if self.is_continuous(d) and self.may(0.2):
            d["stack"] = self.one(None, True, False, "zero", "normalize", "center")
        if self.may(0.1):
            d["title"] = self.one("T", None)
        return d

    def look(self, channel):
        values = {"color": self.one("red", "#abc", 3), "opacity": self.one(0.5, 1, "u"), "size": self.one(50, 100.25, -3)}
        value = (values | {"shape": self.one("square", "diamond")})[channel]
        if self.may(0.1):
            return {"value": value}
        if self.may(0.04):
            return {"datum": self.one("u", 3)}
        kinds = (self.discrete, self.discrete, self.number, self.aggregate, self.binned, self.in_time)
        if channel == "shape":
            kinds = (self.discrete, self.discrete, self.binned)
        d = self.one(*kinds)()
        if channel == "shape" and self.is_continuous(d):
            d = self.discrete()
        if not self.is_continuous(d):
            d = self.sorted(d)
        if self.may(0.2):
            d["scale"] = self.scale(channel, d)
        if self.may(0.25):
            d["legend"] = self.one(None, {"title": self.one("L", None)}, {"format": ".2f"})
        if self.may(0.15):
            test = self.one("datum.b > 2", "datum.a == 'u'", {"field": "c", "gte": 10}, {"field": "a", "oneOf": ["u", None]}, "k > 2",
                            {"not": {"field": "b", "valid": True}})
            of = {"test": test}
            if self.may(0.3):
                of = {"param": self.one("k", *self.selections)} | self.one({}, {"empty": False}, {"empty": True})
            d["condition"] = of | self.one({"value": value}, {"value": value}, self.discrete())
            if self.may(0.2):
                d["condition"] = [{"test": "datum.c < 12", "value": value}, d["condition"]]
            if self.may(0.15):
                d = {"condition": d["condition"]} | self.one({}, {"value": value})
        return d

    # ---- views

    def encoding(self, mark):
        e = {}
        for channel in ("x", "y"):
            if self.may(0.85):
                e[channel] = self.place(channel)
        for channel in ("x", "y"):
            d = e.get(channel, {})
            if mark in ("bar", "rect", "rule", "area") and self.is_continuous(d) and "field" in d and d["field"] != "t" and self.may(0.15):
                e[channel + "2"] = {"field": self.one("b", "c")}
        for channel in ("color", "opacity", "size", "shape"):
            if channel == "size" and mark not in ("point", "circle", "square") or channel == "shape" and mark != "point":
                continue
            if self.may(0.35 if channel == "color" else 0.12):
                e[channel] = self.look(channel)
        if self.may(0.12):
            e["detail"] = self.one(self.discrete(), [self.discrete(), {"field": "c"}])
        if mark == "text" and self.may(0.85):
            d = self.one(self.discrete, self.number, self.aggregate, self.in_time)()
            e["text"] = self.one({"value": "words"}, d, d | {"format": self.one(".1f", "%b %d", ",d")})
        return e

    def mark(self):
        mark = self.one(*MARKS)
        more = {}
        if mark == "line" and self.may(0.25):
            more["point"] = True
        if mark == "point" and self.may(0.3):
            more["filled"] = True
        if self.may(0.1):
            more["color"] = "teal"
        if self.may(0.1):
            more["opacity"] = 0.4
        if mark in ("line", "rule", "point") and self.may(0.15):
            more["strokeWidth"] = 3
        if mark in ("point", "circle", "square") and self.may(0.15):
            more["size"] = 64
        if mark == "text" and self.may(0.4):
            more |= {"align": self.one("left", "right", "center"), "baseline": self.one("top", "middle", "bottom", "alphabetic"), "dx": 3, "dy": -2.5}
            more["fontSize"] = self.one(9, 14)
        return mark, ({"type": mark} | more if more or self.may(0.2) else mark)

    def facet_field(self):
        d = {"field": self.one("g", "h", "a")}
        if self.may(0.35):
            d["sort"] = self.one(None, "descending", ["q"], {"field": "b", "op": "sum"}, {"field": "c", "op": "max", "order": "descending"},
                                 {"op": "count", "order": "descending"})
        if self.may(0.1):
            d["header"] = {"labels": False}
        return d

    def head(self, joined=False):
        v = {}
        if self.may(0.12):
            v["title"] = self.one("V", "W w")
        if not joined and self.may(0.2):
            v["width"] = self.one(100, 55.5, {"step": 12})
        if not joined and self.may(0.2):
            v["height"] = self.one(90, {"step": 7.25})
        if self.may(0.12):
            v["transform"] = [self.one({"filter": "datum.c > 5"}, {"filter": {"field": "a", "oneOf": ["u", "v"]}}, {"filter": {"field": "b", "range": [5, 0]}},
                                       {"filter": {"and": [{"field": "b", "valid": True}, {"field": "c", "lt": 20}]}},
                                       {"calculate": "datum.b + datum.c", "as": "c"},
                                       {"calculate": "datum.a + k", "as": "g"}, {"fold": ["b", "c"]},
                                       {"filter": {"param": self.one(*self.selections)}})]
        if self.may(0.25):
            v["resolve"] = {"scale": {c: self.one("shared", "independent") for c in self.r.sample(["x", "y", "color", "size", "opacity"], self.one(1, 2))}}
        return v

    def unit(self, with_facets=True):
        name, mark = self.mark()
        encoding = self.encoding(name)
        if with_facets and self.may(0.2):
            for channel in self.one(("row",), ("column",), ("facet",), ("row", "column")):
                encoding[channel] = self.facet_field()
                if channel == "facet" and self.may(0.5):
                    encoding[channel]["columns"] = 2
        v = {"mark": mark, "encoding": encoding} | self.head()
        if self.may(0.12):
            self.selections.append(f"pick{len(self.selections)}")
            v["params"] = [{"name": self.selections[-1], "select": "point"}]
        return v

    def layer(self):
        v = {"layer": [self.unit(False) for _ in range(self.one(1, 2, 2, 3))]} | self.head()
        if self.may(0.5):
            channel, place = self.one("x", "y"), self.place("x")
            v["encoding"] = {channel: place if "value" in place else place | {"axis": None}, **({"color": self.look("color")} if self.may(0.3) else {})}
        return v

    def view(self, depth=0):
        k = self.r.random()
        if depth > 1 or k < 0.55:
            return self.unit()
        if k < 0.75:
            return self.layer()
        if k < 0.88:
            f = self.one({"row": self.facet_field()}, {"column": self.facet_field()}, {"row": self.facet_field(), "column": self.facet_field()},
                         self.facet_field(), self.facet_field())
            inside = self.one(lambda: self.unit(False), self.layer, lambda: {"facet": self.facet_field(), "spec": self.unit(False)},
                              lambda: {"hconcat": [self.unit(False), self.unit(False)]})()
            v = {"facet": f, "spec": inside} | self.head(True)
            return v | ({"columns": 2} if "field" in f and self.may(0.5) else {}) | ({"spacing": 7} if self.may(0.2) else {})
        joining = self.one("hconcat", "vconcat", "concat")
        v = {joining: [self.view(depth + 1) for _ in range(self.one(1, 2, 3))]} | self.head(True)
        return v | ({"columns": 2} if joining == "concat" and self.may(0.5) else {})

    def spec(self):
        v = self.view()
        params = [{"name": "k", "value": self.one(1, 3, "u")}] + ([{"name": "twice", "expr": "k + k"}] if self.may(0.2) else [])
        if self.may(0.02):
            params.append({"name": "lost", "expr": "999999999999999 * 10"})
        return v | {"data": {"values": self.rows()}, "params": params + v.get("params", [])} | ({"padding": 3} if self.may(0.1) else {})


class Sorter(Maker):
    """Makes specifications whose cells stand by rows."""

    def __init__(self, seed):
        super().__init__(seed)
        self.with_large = self.may(0.15)
        self.clashes = self.r.sample(CLASHES, self.one(1, 1, 2, 3))

    def rows(self):
        made = super().rows()
        for row in made:
            for name in self.clashes:
                if self.may(0.9):
                    row[name] = self.one("u", "v", 3, 7, None)
        return made

    def discrete(self):
        d = {"field": self.one(*self.clashes) if self.may(0.6) else self.one("a", "g", "h")}
        return d | ({"type": self.one("nominal", "ordinal")} if self.may(0.4) else {})

    def by_rows(self):
        if self.may(0.1):
            return {"op": "count"}
        d = {"field": self.one("b", "b", "c", *self.clashes)}
        return d | ({"op": self.one(*OPS)} if self.may(0.85) else {})

    def direction(self):
        return self.one({}, {}, {"order": "descending"}, {"order": "ascending"})

    def sorted(self, d):
        if self.may(0.2):
            return super().sorted(d)
        return d | {"sort": self.one("x", "-x", "y", "-y") if self.may(0.35) else self.by_rows() | self.direction()}

    def facet_field(self):
        d = {"field": self.one(*self.clashes) if self.may(0.4) else self.one("g", "h", "a")}
        if self.may(0.7):
            d["sort"] = {"op": self.one(*OPS)} | self.by_rows() | self.direction()
        return d

    def head(self, joined=False):
        v = super().head(joined)
        if self.may(0.4):
            v["resolve"] = {"scale": {c: self.one("shared", "independent") for c in self.r.sample(["x", "y", "color"], self.one(1, 2, 3))}}
        return v

    def place(self, channel):
        if self.may(0.4):
            return self.sorted(self.discrete()) | ({"axis": None} if self.may(0.3) else {})
        if self.may(0.3):
            return self.aggregate()
        return super().place(channel)

    def view(self, depth=0):
        if depth == 0 and self.may(0.5):
            inside = self.one(self.layer, self.layer, lambda: self.unit(False), lambda: {"hconcat": [self.unit(False), self.layer()]},
                              lambda: {"facet": self.facet_field(), "spec": self.layer()} | self.head(True))()
            f = self.one(self.facet_field(), {"row": self.facet_field(), "column": self.facet_field()}, {"row": self.facet_field()})
            return {"facet": f, "spec": inside} | self.head(True)
        return super().view(depth)


def spec_of(seed, of=Maker):
    return of(seed).spec()


def exact(spec):
    """The same with fractions as its numbers."""
    return json.loads(json.dumps(spec), parse_float=F, parse_int=F)


def main(words):
    of = Sorter if words[0] == "--sorts" else Maker
    folder, first, count = words[-3], int(words[-2]), int(words[-1])
    os.makedirs(folder, exist_ok=True)
    for seed in range(first, first + count):
        spec = spec_of(seed, of)
        with open(f"{folder}/{seed}.json", "w", encoding="utf-8") as file:
            json.dump(spec, file)
        with open(f"{folder}/{seed}.picture", "w", encoding="utf-8") as file:
            file.write(answer_of(exact(spec)) + "\n")


if __name__ == "__main__":
    sys.exit(main(sys.argv[1:]))
