#!/usr/bin/env python3
"""Draws small Vega-Lite specifications straight from their rules, apart from the program and from its definitions.

Usage: oracles/vl_pictures.py FILE.., at the top of the repository. Of a Vega-Lite specification it prints the picture, `Overflow`, or `Panels`
with their count, and of NAME.script what its lines are answered over NAME.json. Without words it compares those of examples/vega-lite with what is
stored beside them. oracles/vl_random.py makes small specifications at random.

It takes units, layers, facets in facets and joined views, all marks and channels, types, bins, units of time, aggregates, stacks, sorts,
scales, axes, legends, conditions, parameters, selections with their clicks, drags and brushes, and all transforms. There is no plan here: views are
walked copy by copy, scales are made where they are used, and rows are dictionaries. Expressions, instants, aggregates, stacks, ticks, axes
and legends are those of oracles/gallery_pictures.py and oracles/guide_table.py.
"""
import glob
import itertools
import json
import math
import re
import sys
from dataclasses import dataclass, field
from fractions import Fraction as F

from gallery_pictures import (
    FIRST, LAST, MOST, NoReading, Overflow, binned, given, in_range, instant, listed, read_as_expression, row_of_json, rows_of_source, stacked,
    time_label, time_unit, times, truthy, value_of)
from gallery_pictures import transformed as vega_transformed
from guide_table import Scale, axis_answer, by_number_format, cut, display, is_number, is_number_format, legend_answer, near, root, said, step
from mark_pictures import CATEGORY, SHAPES, line_of, lines_in, painted, pairs, path, rank

PLACES = ("x", "y")
SCALED = ("x", "y", "color", "opacity", "size", "shape")
SERIES = ("color", "opacity", "shape", "detail")
FACETS = ("row", "column", "facet")
LEGENDS = ("color", "opacity", "shape", "size")
MOST_PANELS = 400
LARGEST = F(10) ** 11
LABELS = {
    "year": "%Y", "yearquarter": "%Y Q%q", "quarter": "Q%q", "yearmonth": "%b %Y", "month": "%b", "yearmonthdate": "%b %d, %Y", "monthdate": "%b %d",
    "date": "%d", "day": "%a", "yearmonthdatehours": "%b %d, %Y %H:00", "hours": "%H:00", "yearmonthdatehoursminutes": "%b %d, %Y %H:%M",
    "hoursminutes": "%H:%M", "minutes": "00:%M", "yearmonthdatehoursminutesseconds": "%b %d, %Y %H:%M:%S", "seconds": ":%S",
}


class Panels(Exception):
    """More plots in facets than a chart may have."""


# ---- views in their normal form


@dataclass
class View:
    """A view: what it is, its own members, and what stands in it."""

    kind: str
    spec: dict
    inside: list = field(default_factory=list)
    fields: list = field(default_factory=list)
    mark: dict = None
    encoding: dict = None
    number: int = None
    units: list = field(default_factory=list)
    round: list = field(default_factory=list)


def with_plain_names(it, member=None):
    """A part of a specification in which no name of a field is written with an escape."""
    if isinstance(it, dict):
        return {k: v if k == "values" else with_plain_names(v, k) for k, v in it.items()}
    if isinstance(it, list):
        return [with_plain_names(v, member) for v in it]
    of_fields = isinstance(it, str) and member in ("field", "fields", "groupby", "fold", "key", "lookup", "stack")
    return re.sub(r"\\([.\[\]])", r"\1", it) if of_fields else it


HEAD = ("title", "name", "data", "transform", "resolve")


def normal(spec, outer):
    """A view in normal form, inside a layer with this encoding."""
    for joining in ("hconcat", "vconcat", "concat"):
        if joining in spec:
            return View(joining, spec, [normal(s, {}) for s in spec[joining]])
    if "facet" in spec and "spec" in spec:
        f = spec["facet"]
        fields = [("facet", f)] if not {"row", "column"} & set(f) else [(c, f[c]) for c in ("row", "column") if c in f]
        return View("facet", spec, [normal(spec["spec"], {})], fields)
    encoding = {c: d for c, d in (outer | spec.get("encoding", {})).items() if c != "tooltip"}
    if "layer" in spec:
        return View("layer", spec, [normal(s, encoding) for s in spec["layer"]])
    heads = [(c, encoding[c]) for c in ("row", "column") if c in encoding] or [(c, encoding[c]) for c in ("facet",) if c in encoding]
    encoding = {c: d for c, d in encoding.items() if c not in FACETS}
    if heads:
        spacing = next((d["spacing"] for c in ("facet", "row", "column") for h, d in heads if h == c and "spacing" in d), None)
        head = {k: v for k, v in spec.items() if k in HEAD} | ({} if spacing is None else {"spacing": spacing})
        return View("facet", head, [normal({k: v for k, v in spec.items() if k not in HEAD} | {"encoding": encoding}, {})], heads)
    mark = spec["mark"] if isinstance(spec["mark"], dict) else {"type": spec["mark"]}
    if mark["type"] == "line" and mark.get("point"):
        plain = {k: v for k, v in mark.items() if k != "point"}
        shared = {c: d for c, d in encoding.items() if c != "shape"}
        points = plain | {"type": "point", "filled": True}
        return View("layer", spec, [View("unit", {}, mark=plain, encoding=shared), View("unit", {}, mark=points, encoding=encoding)])
    if mark["type"] != "point":
        encoding = {c: d for c, d in encoding.items() if c != "shape"}
    if mark["type"] != "text":
        encoding = {c: d for c, d in encoding.items() if c != "text"}
    return View("unit", spec, mark=mark, encoding=encoding)


def walk(view, outer, units, facets):
    """Numbers units and facets depth-first, and tells each view what stands round it."""
    view.round = outer + [view]
    if view.kind == "facet":
        view.number = len(facets)
        facets.append(view)
    if view.kind == "unit":
        view.number = len(units)
        units.append(view)
        view.units = [view]
    for v in view.inside:
        walk(v, view.round, units, facets)
        view.units = view.units + v.units


# ---- definitions of channels


def branches(channel):
    """The conditions of a channel with their tests, and its own definition without one, in the order in which they are tried."""
    several = channel.get("condition", [])
    several = several if isinstance(several, list) else [several]
    own = {k: v for k, v in channel.items() if k != "condition"}
    tests = [(c.get("test", c), {k: v for k, v in c.items() if k not in ("test", "param", "empty")}) for c in several]
    return tests + ([(None, own)] if own else [])


def definitions(unit, channel):
    """What a channel of a unit shows: its own definition before those of its conditions."""
    of = unit.encoding.get(channel, [])
    found = []
    for c in of if isinstance(of, list) else [of]:
        all_of = branches(c)
        found += [d for t, d in all_of if t is None] + [d for t, d in all_of if t is not None]
    return found


def is_field(d):
    return "field" in d or "aggregate" in d


def scaled(unit, channel):
    """The definitions that have a scale."""
    return [d for d in definitions(unit, channel) if is_field(d) or "datum" in d]


def type_of(d):
    if "type" in d:
        return d["type"]
    kind = d.get("scale", {}).get("type")
    if "aggregate" in d or d.get("bin"):
        return "quantitative"
    if "timeUnit" in d:
        return "temporal"
    if isinstance(d.get("sort"), list):
        return "ordinal"
    return {"linear": "quantitative", "time": "temporal"}.get(kind, "nominal")


def type_in(unit, channel, d):
    first = scaled(unit, channel[0]) if channel in ("x2", "y2") else []
    return type_of(first[0]) if first and "type" not in d else type_of(d)


def is_continuous(d):
    return d is not None and type_of(d) in ("quantitative", "temporal")


def bin_settings(channel, d):
    b = d["bin"] if isinstance(d["bin"], dict) else {}
    most = int(b.get("maxbins", 6 if channel in ("row", "column", "shape") else 10))
    return (f"bin_step_{said(b['step'])}_{d['field']}", {"step": b["step"]}) if "step" in b else (f"bin_maxbins_{most}_{d['field']}", {"maxbins": most})


def is_binned(d):
    return "aggregate" not in d and bool(d.get("bin"))


def in_unit(d):
    return "aggregate" not in d and not d.get("bin") and "timeUnit" in d


def names_of(channel, d):
    """The names of the cells of a definition: those of its start and its end for a bin or a unit of time."""
    if "aggregate" in d:
        return ["__count"] if d["aggregate"] == "count" else [f"{d['aggregate']}_{d['field']}"]
    if is_binned(d):
        name = bin_settings(channel, d)[0]
        return [name, name + "_end"]
    if in_unit(d):
        return [f"{d['timeUnit']}_{d['field']}", f"{d['timeUnit']}_{d['field']}_end"]
    return [d["field"]] if "field" in d else []


def first_in(unit, channel):
    return next(iter(scaled(unit, channel)), None)


def is_measured_by_x(unit):
    x, y = first_in(unit, "x"), first_in(unit, "y")
    if not is_continuous(x):
        return False
    if not is_continuous(y):
        return True
    alone = lambda a, b: bool(a) and not b
    return (alone("aggregate" in x, "aggregate" in y) or alone(type_of(y) == "temporal", type_of(x) == "temporal")
            or alone(is_binned(y), is_binned(x)))


def measure(unit):
    return "x" if is_measured_by_x(unit) else "y"


def dimension(unit):
    return "y" if is_measured_by_x(unit) else "x"


def shown(unit):
    """All definitions of fields of a unit with their channels, those of the facets round it at last."""
    own = [(c, d) for c in unit.encoding for d in definitions(unit, c) if is_field(d)]
    return own + [(c, d) for v in unit.round if v.kind == "facet" for c, d in v.fields]


def is_aggregated(unit):
    return any("aggregate" in d for c in unit.encoding for d in definitions(unit, c))


def series_fields(unit):
    """The names of the cells by which series go, those of a channel's conditions before its own."""
    found = []
    for c in SERIES:
        of = unit.encoding.get(c, [])
        found += [names_of(c, d)[0] for o in (of if isinstance(of, list) else [of]) for _, d in branches(o) if is_field(d) and "aggregate" not in d]
    return found


def stack_of(unit):
    """The name of the measure's cells and the offset of its stack, if it is stacked."""
    d = first_in(unit, measure(unit))
    if d is None or not is_field(d) or not names_of(measure(unit), d):
        return None
    offset = d.get("stack", "default")
    if offset == "default":
        by_itself = unit.mark["type"] in ("bar", "area") and type_of(d) == "quantitative" and series_fields(unit)
        offset = "zero" if by_itself else None
    offset = {True: "zero", False: None}.get(offset, offset) if not isinstance(offset, str) else offset
    return None if offset is None else (names_of(measure(unit), d)[0], offset)


def has_said_stack(unit):
    d = first_in(unit, measure(unit))
    return stack_of(unit) is not None and "stack" in d


# ---- selections


@dataclass
class Store:
    """What a selection keeps: cells of fields, or ends along channels; and the panel in which it was last changed."""

    tuples: list = field(default_factory=list)
    extents: list = field(default_factory=list)
    cells: tuple = None
    unit: int = 0

    def is_empty(self):
        return not self.tuples and not self.extents

    def holds(self, row):
        if self.extents:
            at = [(instant(c) if of_time and isinstance(c := row.get(name), str) else row.get(name), lo, hi) for _, name, of_time, lo, hi in self.extents]
            return all(is_number(c) and lo <= c <= hi for c, lo, hi in at)
        return any(all(same(row.get(name), c) for name, c in t.items()) for t in self.tuples)


@dataclass
class Selection:
    """A parameter with `select`, and the units that it concerns."""

    name: str
    kind: str
    said: dict
    units: list

    def fields(self, unit):
        """The names of the cells that a click on a unit keeps."""
        if self.said.get("fields"):
            return self.said["fields"]
        if self.said.get("encodings"):
            return [names_of(c, definitions(unit, c)[0])[0] for c in self.said["encodings"]]
        if is_aggregated(unit):
            return [n for c, d in shown(unit) if "aggregate" not in d for n in names_of(c, d)]
        return ["_vgsid_"]

    def channels(self):
        """Along what an interval is dragged: a channel that it names twice counts once."""
        return list(dict.fromkeys(self.said.get("encodings") or PLACES))


# ---- rows


def filtered_by(f, row, values):
    if isinstance(f, str):
        return truthy(value_of(f, row, values))
    if "and" in f:
        return all(filtered_by(g, row, values) for g in f["and"])
    if "or" in f:
        return any(filtered_by(g, row, values) for g in f["or"])
    if "not" in f:
        return not filtered_by(f["not"], row, values)
    if "param" in f:
        held = values[f["param"]]
        if not isinstance(held, Store):
            return truthy(held)
        return f.get("empty", True) if held.is_empty() else held.holds(row)
    cell = row.get(f["field"])
    if "timeUnit" in f:
        cell = time_unit(cell, f["timeUnit"])[0]
        moment = lambda c: instant(c) if isinstance(c, str) else c
        f = {k: v if k in ("field", "valid") else [moment(c) for c in v] if isinstance(v, list) else moment(v) for k, v in f.items() if k != "timeUnit"}
    same_kind = lambda a: is_number(a) and is_number(cell) or isinstance(a, str) and isinstance(cell, str)
    if "equal" in f:
        return same(cell, f["equal"])
    if "oneOf" in f:
        return any(same(cell, c) for c in f["oneOf"])
    if "valid" in f:
        return (cell is not None) == f["valid"]
    if "range" in f:
        lo, hi = f["range"]
        if lo is None and hi is None:
            return True
        if not is_number(cell):
            return False
        if None in (lo, hi):
            return cell >= lo if hi is None else cell <= hi
        return min(lo, hi) <= cell <= max(lo, hi)
    name, bound = next((n, f[n]) for n in ("lt", "lte", "gt", "gte") if n in f)
    if not same_kind(bound):
        return False
    return {"lt": rank(cell) < rank(bound), "lte": rank(cell) <= rank(bound), "gt": rank(cell) > rank(bound), "gte": rank(cell) >= rank(bound)}[name]


def kind(cell):
    return "null" if cell is None else "flag" if isinstance(cell, bool) else "text" if isinstance(cell, str) else "number"


def same(a, b):
    return kind(a) == kind(b) and a == b


class Cells(list):
    """Cells among which true isn't 1."""

    def index(self, cell):
        return next(i for i, c in enumerate(self) if same(c, cell))

    def __contains__(self, cell):
        return any(same(c, cell) for c in self)


class Ramp(Scale):
    """A ramp of colours, perhaps turned round."""

    def __init__(self, kind_, domain, turned):
        super().__init__(kind_, domain)
        self.turned = turned

    def paint(self, cell):
        if not is_number(cell) or self.kind == "timeramp" and not FIRST <= cell <= LAST:
            return None
        d0, d1 = self.n
        at = F(1, 2) if d0 == d1 else F(max(d0, min(d1, cell)) - d0) / (d1 - d0)
        ends = list(zip((222, 235, 247), (8, 81, 156)))
        return "#" + "".join(f"{a + math.floor((b - a) * at + F(1, 2)):02x}" for a, b in ([(b, a) for a, b in ends] if self.turned else ends))


def scale_with(kind_, numbers, domain=(), entries=()):
    s = Scale(kind_, numbers, domain, entries)
    s.domain = Cells(domain)
    return s


def two_names(t):
    return t["as"] if isinstance(t["as"], list) else [t["as"], t["as"] + "_end"]


def columns_of(operations):
    """The members of Vega's transforms for a list of operations."""
    return {"ops": [o["op"] for o in operations], "fields": [o.get("field") for o in operations], "as": [o["as"] for o in operations],
            "params": [o.get("param") for o in operations]}


def sorted_as(t):
    sort = t.get("sort", [])
    return {"sort": {"field": [s["field"] for s in sort], "order": [s.get("order", "ascending") for s in sort]}} if sort else {}


def transformed(t, rows, values, rows_of_data):
    """The rows after a transform; `rows_of_data` gives those of the data of a lookup."""
    if "filter" in t:
        return [row for row in rows if filtered_by(t["filter"], row, values)]
    if "calculate" in t:
        return [row | {t["as"]: value_of(t["calculate"], row, values)} for row in rows]
    if "bin" in t:
        settings = t["bin"] if isinstance(t["bin"], dict) else {}
        return binned({"field": t["field"], "extent": {"signal": "null"}, "as": two_names(t)} | settings, rows, {})
    if "timeUnit" in t:
        return [row | dict(zip(two_names(t), time_unit(row.get(t["field"]), t["timeUnit"]))) for row in rows]
    groups = {"groupby": t["groupby"]} if "groupby" in t else {}
    if "stack" in t:
        return stacked({"field": t["stack"], "as": two_names(t), "offset": t.get("offset", "zero")} | groups | sorted_as(t), rows)
    for name in ("aggregate", "joinaggregate", "window"):
        if name in t:
            more = {k: t[k] for k in ("frame", "ignorePeers") if k in t}
            return vega_transformed({"type": name} | columns_of(t[name]) | groups | sorted_as(t) | more, rows, {}, values)
    if "lookup" in t:
        of = t["from"]
        names = t.get("as", of["fields"])
        found = {"type": "lookup", "from": 0, "key": of["key"], "fields": [t["lookup"]], "values": of["fields"],
                 "as": names if isinstance(names, list) else [names], "default": t.get("default")}
        return vega_transformed(found, rows, {0: rows_of_data(of["data"])}, values)
    key, value = t.get("as", ["key", "value"])
    return [row | {key: name, value: row.get(name)} for row in rows for name in t["fold"]]


def cells_named(rows, fields):
    parts = {}
    for row in rows:
        parts.setdefault(tuple((kind(row.get(f)), row.get(f)) for f in fields), []).append(row)
    return parts


def rows_of(unit, source, values, rows_of_data):
    """The rows of a unit, and those before its aggregate."""
    rows = source
    for v in unit.round:
        for t in v.spec.get("transform", []):
            rows = transformed(t, rows, values, rows_of_data)
    for c, d in [(c, d) for c in unit.encoding for d in definitions(unit, c)] + [(c, d) for v in unit.round if v.kind == "facet" for c, d in v.fields]:
        if "field" in d and (type_in(unit, c, d) == "temporal" or "timeUnit" in d):
            rows = [row | {d["field"]: instant(v) if isinstance(v := row.get(d["field"]), str) else v} for row in rows]
    for c, d in shown(unit):
        if is_binned(d):
            rows = binned({"field": d["field"], "extent": {"signal": "null"}, "as": names_of(c, d)} | bin_settings(c, d)[1], rows, {})
    for c, d in shown(unit):
        if in_unit(d):
            rows = [row | dict(zip(names_of(c, d), time_unit(row.get(d["field"]), d["timeUnit"]))) for row in rows]
    begun = rows
    if is_aggregated(unit):
        groups = [n for c, d in shown(unit) if "aggregate" not in d for n in names_of(c, d)]
        sums = {names_of(c, d)[0]: (d["aggregate"], d.get("field")) for c, d in shown(unit) if "aggregate" in d}
        rows = []
        for part in cells_named(begun, groups).values():
            made = {name: part[0].get(name) for name in groups}
            for name, (op, of) in sums.items():
                made[name] = given(op, [None if of is None else row.get(of) for row in part])
            rows.append(made)
    if stack := stack_of(unit):
        name, offset = stack
        d = first_in(unit, dimension(unit))
        groups = names_of(dimension(unit), d)[:1] if d is not None and is_field(d) else []
        groups += [names_of(c, f)[0] for v in unit.round if v.kind == "facet" for c, f in v.fields]
        by = series_fields(unit)
        sort = {"sort": {"field": by, "order": ["descending"] * len(by)}} if by else {}
        rows = stacked({"field": name, "groupby": groups, "offset": offset, "as": [name + "_start", name + "_end"]} | sort, rows)
    return rows, begun


# ---- cells in order


def in_turn(cells):
    return list({(kind(c), c): c for c in cells}.values())


def by_rank(cells, made, backward):
    ranks = {(kind(c), c): made(c) for c in cells}
    return sorted(sorted(in_turn(cells), key=rank), key=lambda c: rank(ranks[kind(c), c]), reverse=backward)


def ordered(cells, sort, made):
    """Distinct cells by what `sort` says; `made` gives the rank of a cell by a sort over rows, and whether it goes down."""
    if sort is None:
        return in_turn(cells)
    if sort in ("ascending", "descending"):
        return sorted(in_turn(cells), key=rank, reverse=sort == "descending")
    if isinstance(sort, list):
        listed = [c for c in in_turn(sort) if any(same(c, d) for d in cells)]
        return listed + [c for c in sorted(in_turn(cells), key=rank) if not any(same(c, d) for d in listed)]
    backward = sort.startswith("-") if isinstance(sort, str) else sort.get("order") == "descending"
    return by_rank(cells, made, backward)


def sort_over(unit, sort):
    """The operation and the field of a sort over the rows of a unit."""
    if isinstance(sort, dict):
        return sort.get("op", "sum" if stack_of(unit) else "min"), sort.get("field")
    channel = sort[-1]
    d = first_in(unit, channel)
    if d is None or not is_field(d):
        return "min", None
    if "aggregate" in d:
        return d["aggregate"], d.get("field")
    return "sum" if channel == measure(unit) and stack_of(unit) else "min", names_of(channel, d)[0]


# ---- copies of views


@dataclass
class Copy:
    """A copy of a view: the rows of each unit, and the cells, headers and spots of the facets round it, each with its own copy there."""

    rows: dict
    begun: dict
    cells: tuple = None
    headers: tuple = ()
    spots: tuple = ()
    held: dict = field(default_factory=dict)


def datas_in(view):
    """The data of a view and of the views in it, in the order of the text."""
    for name, member in view.items():
        if name == "data":
            yield member
        elif name == "transform":
            yield from (t["from"]["data"] for t in member if "lookup" in t)
        elif name in ("layer", "hconcat", "vconcat", "concat"):
            for inner in member:
                yield from datas_in(inner)
        elif name == "spec":
            yield from datas_in(member)


def names_of_data(spec):
    """The name of each data, by its identity, in the order of the text."""
    unnamed = itertools.count()
    return {id(d): d["name"] if "name" in d else f"source_{next(unnamed)}" for d in datas_in(spec)}


def rows_given(spec):
    """The rows with which each source begins: those of the data of its name, of a dataset, or none."""
    names = names_of_data(spec)
    with_rows = {names[id(d)]: d for d in datas_in(spec) if "values" in d or "url" in d}
    ids, found = itertools.count(1), {}
    for data in datas_in(spec):
        name = names[id(data)]
        if name not in found:
            of = with_rows.get(name, {"values": spec.get("datasets", {}).get(name, []), "format": data.get("format", {})})
            kind_ = {"type": "csv" if of.get("url", "").endswith(".csv") else "json"}
            found[name] = [row | {"_vgsid_": F(next(ids))} for row in rows_of_source(of | {"format": kind_ | of.get("format", {})})]
    return found, next(ids)


class Chart:
    def __init__(self, spec, rows=None, given_=None, stores=None):
        self.spec = spec
        self.top = normal(spec, {})
        self.units, self.facets = [], []
        walk(self.top, [], self.units, self.facets)
        self.names = names_of_data(spec)
        self.sources = rows_given(spec)[0] if rows is None else rows
        self.lost = False
        views = list({id(v): v for u in self.units for v in u.round}.values())
        self.listed = [(v, p) for v in views for p in v.spec.get("params", [])]
        self.selections = self.selecting(views)
        self.values = self.parameters(given_ or {}) | {s.name: (stores or {}).get(s.name, Store()) for s in self.selections}

    def selecting(self, views):
        found = []
        for v, p in self.listed:
            if "select" in p:
                said_ = p["select"] if isinstance(p["select"], dict) else {"type": p["select"]}
                concerned = v.units if "views" not in p else [u for w in views if w.spec.get("name") in p["views"] for u in w.units]
                found.append(Selection(p["name"], said_["type"], said_, sorted({u.number for u in concerned})))
        return found

    def parameters(self, given_):
        """The values of parameters; a computed one is worked out once those that it may need are."""
        listed_ = [p for _, p in self.listed]
        values = {p["name"]: given_.get(p["name"], p.get("value")) for p in listed_ if "expr" not in p and "select" not in p}
        for _ in listed_:
            for p in listed_:
                if "expr" in p:
                    try:
                        values[p["name"]] = value_of(p["expr"], {}, values)
                    except Overflow:
                        self.lost = True
        return values

    def source_of(self, unit):
        return self.rows_of_data(next(v.spec["data"] for v in reversed(unit.round) if "data" in v.spec))

    def rows_of_data(self, data):
        return self.sources[self.names[id(data)]]

    # -- sharing

    def home(self, unit, channel):
        """The view up to which a unit shares a channel."""
        at = unit
        for v in reversed(unit.round[:-1]):
            apart = v.kind in ("hconcat", "vconcat", "concat") and channel in PLACES
            sharing = v.spec.get("resolve", {}).get("scale", {}).get(channel, "independent" if apart else "shared")
            if sharing == "independent":
                break
            at = v
        return at

    def holder(self, unit, channel):
        """The innermost facet that makes a channel of a unit independent."""
        for v in reversed(unit.round):
            if v.kind == "facet" and v.spec.get("resolve", {}).get("scale", {}).get(channel) == "independent":
                return v
        return None

    def sharers(self, unit, channel):
        """The units that share a scale; none where the unit has nothing for it."""
        if not scaled(unit, channel):
            return []
        home = self.home(unit, channel)
        return [u for u in home.units if scaled(u, channel) and self.home(u, channel) is home]

    def says(self, units, channel):
        return [(u, d) for u in units for d in scaled(u, channel)]

    # -- scales

    def kind(self, units, channel):
        d = scaled(units[0], channel)[0]
        said_ = [d.get("scale", {}).get("type") for _, d in self.says(units, channel)]
        t = type_of(d)
        if t in ("quantitative", "temporal"):
            return ("ramp" if t == "quantitative" else "timeramp") if channel == "color" else "linear" if t == "quantitative" else "time"
        if channel in PLACES:
            own = next((s for s in said_ if s in ("band", "point")), None)
            return own or ("band" if any(u.mark["type"] in ("bar", "rect", "rule") for u in units) else "point")
        if channel == "opacity":
            return "ordinal" if "ordinal" in said_ else "point"
        return "point" if channel == "size" else "ordinal"

    def member(self, units, channel, name, default=None):
        return next((d["scale"][name] for _, d in self.says(units, channel) if name in d.get("scale", {})), default)

    def columns(self, units, channel, continuous):
        """The cells of all rows that count for a domain, as functions of a copy."""
        for u in units:
            for c in (channel, channel + "2") if channel in PLACES else (channel,):
                for i, d in enumerate(scaled(u, c)):
                    if "datum" in d:
                        yield u, lambda row, d=d: [d["datum"]]
                        continue
                    names = names_of(c, d)
                    stack = stack_of(u)
                    if stack and c == measure(u) and i == 0:
                        names = [stack[0] + "_start", stack[0] + "_end"]
                    elif not (continuous and is_binned(d) and c == channel):
                        names = names[:1]
                    yield u, lambda row, names=names: [row.get(n) for n in names]

    def cells(self, units, channel, continuous, copy):
        return [c for u, of in self.columns(units, channel, continuous) for row in copy.rows[u.number] for c in of(row)]

    def domain(self, units, channel, copy):
        """The domain of a scale, over the rows of the whole chart or of the panel to which the scale belongs."""
        holder = self.holder(units[0], channel)
        copy = self.whole if holder is None else copy.held[holder.number]
        kind_ = self.kind(units, channel)
        given_ = self.member(units, channel, "domain")
        if isinstance(given_, dict):
            dragged = self.dragged(given_)
            if dragged is not None and kind_ in ("linear", "time", "ramp", "timeramp"):
                return dragged
            given_ = None
        if kind_ in ("linear", "time", "ramp", "timeramp"):
            of_time = kind_ in ("time", "timeramp")
            cells = self.cells(units, channel, True, copy) if given_ is None else given_
            if given_ is not None and of_time:
                cells = [instant(c) if isinstance(c, str) else c for c in cells]
            found = [c for c in cells if is_number(c) and (not of_time or FIRST <= c <= LAST)] or [F(0), F(1)]
            return self.widened(units, channel, min(found), max(found), of_time)
        if given_ is not None:
            return given_
        cells = self.cells(units, channel, False, copy)
        deciding = next(((u, c, d) for u, c, d in ((u, channel, d) for u in units for d in scaled(u, channel)) if "sort" in d), None)
        if deciding is None:
            return ordered(cells, "ascending", None)
        u, _, d = deciding
        return ordered(cells, d["sort"], lambda cell: self.rank_in(copy.begun[u.number], u, channel, d, cell))

    def dragged(self, asked):
        """The ends that an interval keeps along a channel, or along its first."""
        held = self.values.get(asked["param"])
        ends = [(lo, hi) for c, _, _, lo, hi in held.extents if asked.get("encoding", c) == c] if isinstance(held, Store) else []
        return ends[0] if ends else None

    def rank_in(self, rows, unit, channel, d, cell):
        if "aggregate" in d or not is_field(d):
            return None
        op, of = sort_over(unit, d["sort"])
        name = names_of(channel, d)[0]
        return given(op, [None if of is None else row.get(of) for row in rows if same(row.get(name), cell)])

    def widened(self, units, channel, lo, hi, of_time):
        opens = lambda u: any(type_of(d) == "quantitative" and not is_binned(d) and "domain" not in d.get("scale", {}) for d in scaled(u, channel))
        runs = lambda u: u.mark["type"] in ("bar", "area", "line") and channel == dimension(u)
        zero = self.member(units, channel, "zero")
        if zero is None:
            zero = channel == "size" or channel in PLACES and any(opens(u) and not runs(u) for u in units)
        nice = self.member(units, channel, "nice")
        if nice is None:
            nice = channel in PLACES and any(map(opens, units))
        if zero:
            lo, hi = min(lo, F(0)), max(hi, F(0))
        for _ in range(10 if nice and lo < hi else 0):
            by = step(lo, hi, 10)
            if by is None:
                raise Overflow
            lo, hi = in_range(math.floor(lo / by) * by), in_range(math.ceil(hi / by) * by)
        return (max(lo, F(FIRST)), min(hi, F(LAST))) if of_time else (lo, hi)

    def paddings(self, units, channel, kind_):
        both = self.member(units, channel, "padding")
        inner = self.member(units, channel, "paddingInner", both)
        outer = self.member(units, channel, "paddingOuter", both)
        if kind_ == "point":
            return F(1), outer if outer is not None else F(1, 2) if channel in PLACES else F(0)
        inner = inner if inner is not None else F(0) if all(u.mark["type"] == "rect" for u in units) else F(1, 10)
        return inner, outer if outer is not None else near(inner / 2)

    def absent(self, unit, channel):
        """The scale of a channel that is absent: one cell."""
        type_ = unit.mark["type"]
        return "band" if type_ in ("bar", "rect", "rule") else "point", (F(0), F(0)) if type_ == "rect" else (F(1, 10), F(1, 20))

    def scale(self, unit, channel, width, height, copy):
        """The scale of a unit's channel over its domain in a copy, in a plot of this size."""
        units = self.sharers(unit, channel)
        whole = (F(0), width) if channel == "x" else (F(0), height)
        if not units:
            kind_, paddings = self.absent(unit, channel)
            if kind_ == "point":
                paddings = F(1), F(1, 2)
            return scale_with(kind_, (*paddings, *whole), [None])
        kind_, domain = self.kind(units, channel), self.domain(units, channel, copy)
        reverse = self.member(units, channel, "reverse", False)
        listed_, scheme = self.range_given(units, channel, kind_), self.member(units, channel, "scheme")
        if kind_ in ("ramp", "timeramp"):
            return Ramp(kind_, domain, reverse)
        if kind_ == "ordinal":
            entries = listed_ or {"color": CATEGORY, "shape": SHAPES, "opacity": [F(3, 10), F(8, 10)]}[channel]
            if scheme == "blues" and not listed_:
                shades = Scale("ramp", (0, max(1, len(domain) - 1)))
                entries = [shades.paint(F(k)) for k in range(len(domain))]
            return scale_with("ordinal", (), domain, entries[::-1] if reverse else entries)
        if channel == "y" and kind_ in ("linear", "time"):
            whole = (height, F(0))
        ends = tuple(listed_) if listed_ else {"opacity": (F(3, 10), F(8, 10)), "size": (F(0), F(361)), "shape": (F(0), F(0))}.get(channel, whole)
        ends = ends[::-1] if reverse else ends
        if kind_ in ("linear", "time"):
            return Scale(kind_, (*domain, *ends))
        return scale_with(kind_, (*self.paddings(units, channel, kind_), *ends), domain)

    def range_given(self, units, channel, kind_):
        for _, d in self.says(units, channel):
            r = d.get("scale", {}).get("range")
            if r is not None and (kind_ == "ordinal" or kind_ not in ("ramp", "timeramp") and len(r) == 2 and all(map(is_number, r))):
                return r
        return None

    # -- sizes

    def size(self, plot, channel, copy):
        """The width or the height of a plot."""
        name = {"x": "width", "y": "height"}[channel]
        views = []

        def depth_first(v):
            views.append(v)
            for w in v.inside:
                depth_first(w)

        depth_first(plot)
        unit = next((u for u in plot.units if scaled(u, channel)), plot.units[0])
        units = self.sharers(unit, channel)
        continuous = bool(units) and self.kind(units, channel) in ("linear", "time")
        # a step says nothing of a continuous scale
        asked = next((v.spec[name] for v in views if name in v.spec and not (continuous and isinstance(v.spec[name], dict))), None)
        if asked is not None and not isinstance(asked, dict):
            return F(asked)
        view = self.spec.get("config", {}).get("view", {})
        if continuous:
            return F(view.get("continuous" + name.capitalize(), 200))
        by_cells = view.get("discrete" + name.capitalize())
        if asked is None and by_cells is not None and not isinstance(by_cells, dict):
            return F(by_cells)
        kind_, (inner, outer), count = (*self.absent(unit, channel), 1) if not units else (self.kind(units, channel), (F(0), F(0)), 0)
        if units:
            inner, outer = self.paddings(units, channel, kind_)
            count = len(self.domain(units, channel, copy))
        if kind_ == "point":
            inner, outer = F(1), outer if units else F(1, 2)
        space = F(0) if count == 0 else max(count - inner + 2 * outer, 0) or F(1)
        by_step = asked or by_cells or {"step": view.get("step", F(20))}
        return min(LARGEST, in_range(near(F(by_step["step"]) * space)))


# ---- marks


LACKING = object()
# what a channel shows for a row of which none of its conditions holds
OPEN = {"open": True}


def reach(x):
    """A place, tested for range."""
    if x is not None and abs(x) > F(10) ** 15:
        raise Overflow
    return x


class Here:
    """A unit in a plot: its scales, and what its channels give for a row."""

    def __init__(self, chart, unit, width, height, copy):
        self.chart, self.unit, self.width, self.height, self.copy, self.kept = chart, unit, width, height, copy, {}
        self.type = unit.mark["type"]
        self.stack = stack_of(unit)
        self.row = None

    def scale(self, channel):
        if channel not in self.kept:
            self.kept[channel] = self.chart.scale(self.unit, channel, self.width, self.height, self.copy)
        return self.kept[channel]

    def length(self, channel):
        return self.width if channel == "x" else self.height

    def own(self, channel):
        """The definition of a place that counts for the present row, OPEN where none does, None where the channel is absent."""
        return (self.branch(channel, self.row) or OPEN) if channel in self.unit.encoding else None

    def shows_stack(self, channel, d):
        return bool(self.stack) and channel == measure(self.unit) and names_of(channel, d)[:1] == [self.stack[0]]

    def middle(self, channel):
        return near(self.length(channel) / 2)

    def cell(self, channel, d, row):
        return d["datum"] if "datum" in d else row.get(names_of(channel, d)[0])

    def at(self, channel, cell, share=None):
        """The place of a cell on a scale: its lesser end on a band, or a share of the band further."""
        s = self.scale(channel[0])
        if s.kind != "band":
            return reach(s.place(cell))
        if share == "centre":
            return reach(s.place(cell))
        place = s.plain_place(cell)
        if place is None or share is None:
            return reach(place)
        inner, outer, r0, r1 = s.n
        space = len(s.domain) - inner + 2 * outer
        return reach(place + (near(abs(r1 - r0) * (1 - inner) / space) if space > 0 else 0))

    def base(self, channel):
        if channel in self.unit.encoding and not scaled(self.unit, channel):
            return F(0) if channel == "x" else self.height
        s = self.scale(channel)
        if s.kind in ("linear", "time"):
            d0, d1, r0, _ = s.n
            return reach(s.place(F(0))) if d0 <= 0 <= d1 else r0
        zero = s.plain_place(F(0))
        return s.n[2] if zero is None else reach(zero)

    def value(self, d):
        return near(d["value"]) if is_number(d["value"]) else None

    def centre(self, channel, row, with_middle):
        """Where a mark of one place stands, its bin's middle where that is asked."""
        d = self.own(channel)
        if d is None:
            return self.at(channel, None, "centre")
        if d is OPEN:
            return self.middle(channel)
        if "value" in d:
            return self.value(d)
        if self.shows_stack(channel, d):
            return self.at(channel, row.get(self.stack[0] + "_end"), "centre")
        if with_middle and is_binned(d) and self.scale(channel).kind in ("linear", "time"):
            a, b = (row.get(n) for n in names_of(channel, d))
            return self.at(channel, near((a + b) / 2) if is_number(a) and is_number(b) else None)
        return self.at(channel, self.cell(channel, d, row), "centre")

    def about(self, at, size):
        return None if at is None else (reach(at - size / 2), reach(at + size / 2))

    def second(self, channel, row, share=None):
        """The place of x2 or y2, LACKING where there is none."""
        d = self.own(channel + "2")
        if d is None or d is OPEN:
            return LACKING
        if "value" in d:
            return self.value(d)
        return self.at(channel, self.cell(channel + "2", d, row), share) if scaled(self.unit, channel) or channel not in self.unit.encoding else None

    def extended(self, channel, row, gap):
        """The ends of a mark along a dimension: a band, a bin, a unit of time, or 5 about the centre."""
        d = self.own(channel)
        s = self.scale(channel)
        pixels = d is not None and "value" in d
        if s.kind == "band" and not pixels:
            cell = None if d is None or d is OPEN else self.cell(channel, d, row)
            return self.at(channel, cell), self.at(channel, cell, "end")
        if d is not None and is_field(d) and (is_binned(d) or in_unit(d)) and s.kind in ("linear", "time"):
            start, end = names_of(channel, d)
            if s.n[2] > s.n[3]:
                start, end = end, start
            a = self.at(channel, row.get(start))
            return None if a is None else reach(a + gap), self.at(channel, row.get(end))
        return self.about(self.value(d) if pixels else self.centre(channel, row, False), F(5))

    def measured(self, channel, row):
        """The ends of a bar or an area along its measure."""
        share = "centre" if self.type == "area" else None
        d = self.own(channel)
        is_stacked = d is not None and self.shows_stack(channel, d)
        if self.stack:
            far = self.at(channel, row.get(self.stack[0] + "_start"), share) if is_stacked else self.base(channel)
        else:
            far = self.second(channel, row, share)
            far = self.base(channel) if far is LACKING else far
        if d is OPEN:
            return self.middle(channel) if self.type == "area" else None, far
        if d is not None and "value" in d:
            return self.value(d), far
        cell = row.get(self.stack[0] + "_end") if is_stacked else None if d is None else self.cell(channel, d, row)
        return self.at(channel, cell, share), far

    def span(self, channel, row):
        """The ends of a bar, a rect or a tick along x or y."""
        if self.type == "tick":
            upright = is_continuous(first_in(self.unit, "x"))
            return self.about(self.centre(channel, row, True), F(1) if (channel == "x") == upright else F(15))
        if self.type == "bar":
            return self.measured(channel, row) if channel == measure(self.unit) else self.extended(channel, row, 1)
        d = self.own(channel)
        if channel + "2" in self.unit.encoding:
            far = self.second(channel, row)
            has_bands = self.scale(channel).kind == "band"
            if d is OPEN:
                near_ = self.at(channel, None) if has_bands else self.middle(channel)
            else:
                near_ = self.value(d) if "value" in d else self.at(channel, self.cell(channel, d, row), None if has_bands else "centre")
            return near_, None if far is LACKING else far
        if d is not None and d is not OPEN and self.shows_stack(channel, d) and has_said_stack(self.unit):
            return self.measured(channel, row)
        return self.extended(channel, row, 0)

    # -- looks

    def branch(self, channel, row):
        for test, d in branches(self.unit.encoding.get(channel, {})):
            if test is None or filtered_by(test, row, self.chart.values):
                return d
        return None

    def paint(self, channel, row, default):
        d = self.branch(channel, row)
        if d is None:
            return default
        if "value" in d:
            return d["value"] if isinstance(d["value"], str) else None
        return self.scale(channel).paint(self.cell(channel, d, row))

    def amount(self, channel, row, default):
        d = self.branch(channel, row)
        if d is None:
            return default
        if "value" in d:
            return self.value(d)
        return reach(self.scale(channel).plain_place(self.cell(channel, d, row)))

    def look(self, row):
        """How an item is painted: its fill, stroke, width and opacity; None where it lacks a colour."""
        m = self.unit.mark
        stroked = self.type in ("line", "rule") or self.type == "point" and not m.get("filled", False)
        color = self.paint("color", row, m.get("color", "#000" if self.type in ("text", "rule") else "#4c78a8"))
        faint = self.type in ("point", "tick", "circle", "square") and not is_aggregated(self.unit)
        opacity = self.amount("opacity", row, m.get("opacity", F(7, 10) if faint else F(1)))
        width = m.get("strokeWidth", F(1) if self.type == "rule" else F(2))
        return None if color is None else (None if stroked else color, color if stroked else None, width, opacity)

    # -- shapes

    def symbol(self, row):
        x, y = self.centre("x", row, True), self.centre("y", row, True)
        size = self.amount("size", row, self.unit.mark.get("size", F(30)))
        form = {"circle": "circle", "square": "square"}.get(self.type) or self.paint("shape", row, "circle")
        if None in (x, y, size) or size < 0:
            return None
        r = near(root(size) / 2)
        if form == "square":
            return "rect" + pairs(x=x - r, y=y - r, width=root(size), height=root(size))
        if form == "diamond":
            return path((("M", x - r, y), ("L", x, y - r), ("L", x + r, y), ("L", x, y + r), ("Z",)))
        if form == "triangle-up":
            h = near(r * F("0.866025"))
            return path((("M", x, y - h), ("L", x - r, y + h), ("L", x + r, y + h), ("Z",)))
        return "circle" + pairs(cx=x, cy=y, r=r)

    def rule_ends(self, channel, row):
        if self.own(channel) is None:
            return F(0), self.length(channel)
        a, b = self.centre(channel, row, False), self.second(channel, row, "centre")
        return a, a if b is LACKING else b

    def words(self, row):
        d = self.branch("text", row)
        if d is None:
            return ""
        cell = d["value"] if "value" in d else self.cell("text", d, row)
        cell = near(cell) if is_number(cell) else cell
        form = d.get("format")
        if form is not None and is_number(cell):
            if is_number_format(form):
                return by_number_format(form, None, cell)
            if FIRST <= cell <= LAST:
                return time_label(cell, form)
        return display(cell)

    def letters(self, row):
        m = self.unit.mark
        x, y = self.centre("x", row, True), self.centre("y", row, True)
        if None in (x, y):
            return None
        size = F(m.get("fontSize", 11))
        below = {"top": size, "bottom": F(0), "alphabetic": F(0)}.get(m.get("baseline"), near(size * F(3, 10)))
        anchor = {"left": "start", "right": "end"}.get(m.get("align"), "middle")
        return "text" + pairs(x=x + m.get("dx", 0), y=y + below + m.get("dy", 0), text_anchor=anchor, font_size=size)

    def shape(self, row):
        self.row = row
        if self.type in ("point", "circle", "square"):
            return self.symbol(row)
        if self.type == "text":
            return self.letters(row)
        if self.type == "rule":
            x, y = self.rule_ends("x", row), self.rule_ends("y", row)
            return None if None in x + y else "line" + pairs(x1=x[0], y1=y[0], x2=x[1], y2=y[1])
        x, y = self.span("x", row), self.span("y", row)
        if None in (x, y) or None in x + y:
            return None
        return "rect" + pairs(x=min(x), y=min(y), width=reach(abs(x[1] - x[0])), height=reach(abs(y[1] - y[0])))

    def items(self):
        """The items, each with its row where it can be clicked on."""
        rows = self.copy.rows[self.unit.number]
        if self.type in ("line", "area"):
            yield from ((line, None) for line in self.paths(rows))
            return
        for row in rows:
            found, look = self.shape(row), self.look(row)
            words = self.words(row) if self.type == "text" else None
            if found is not None and look is not None and look[3] is not None:
                yield painted(found, *look, words), None if self.type in ("text", "rule") else row

    def paths(self, rows):
        d = first_in(self.unit, dimension(self.unit))
        by = names_of(dimension(self.unit), d)[0] if d is not None and is_field(d) and names_of(dimension(self.unit), d) else None
        for part in cells_named(rows, series_fields(self.unit)).values():
            part = sorted(part, key=lambda row: rank(row.get(by))) if by else part
            runs = [[]]
            for row in part:
                self.row = row
                there = {c: self.centre(c, row, False) for c in PLACES}
                back = dict(there)
                if self.type == "area":
                    c = measure(self.unit)
                    there[c], back[c] = self.measured(c, row)
                if None in [*there.values(), *back.values()]:
                    runs.append([])
                else:
                    runs[-1].append((there, back))
            steps = []
            for run in filter(None, runs):
                steps += [("L" if i else "M", p["x"], p["y"]) for i, (p, _) in enumerate(run)]
                if self.type == "area":
                    steps += [("L", p["x"], p["y"]) for _, p in reversed(run)] + [("Z",)]
            look = self.look(part[0])
            if steps and look is not None:
                yield painted(path(steps), *look[:3], F(1) if look[3] is None else look[3])


# ---- guides


OPS = {"average": "Average", "q1": "Q1", "q3": "Q3"}


def default_title(d):
    if "datum" in d:
        return None
    if "aggregate" in d:
        return "Count of Records" if d["aggregate"] == "count" else f"{OPS.get(d['aggregate'], d['aggregate'].capitalize())} of {d['field']}"
    return f"{d['field']} (binned)" if is_binned(d) else f"{d['field']} ({d['timeUnit']})" if in_unit(d) else d["field"]


def joined_title(found, guide):
    """The titles of definitions, equal ones once."""
    titles = []
    for d in found:
        own = d.get(guide) or {}
        title = own["title"] if "title" in own else d["title"] if "title" in d else default_title(d)
        if title is not None and title not in titles:
            titles.append(title)
    return ", ".join(titles) if titles else None


def guide_format(found, guide):
    own = next((d[guide]["format"] for d in found if "format" in (d.get(guide) or {})), None)
    first = first_field(found)
    return own or (LABELS[first["timeUnit"].removeprefix("utc")] if first and in_unit(first) else None)


def first_field(found):
    return next((d for d in found if is_field(d)), None)


def moments(s, cells, form):
    """The labels of those cells that are labelled as instants: on a scale of time, and by a pattern."""
    if form is not None and is_number_format(form) or form is None and s.kind not in ("time", "timeramp"):
        return {}
    return {c: time_label(c, form) for c in cells or () if is_number(c) and FIRST <= c <= LAST}


def plot_axes(chart, plot):
    """The axes of a plot, those of x before those of y: each with its unit, its channel, its side and its definitions."""
    for channel in PLACES:
        drawn, seen = 0, []
        for u in plot.units:
            if not scaled(u, channel) or chart.home(u, channel) in seen:
                continue
            home = chart.home(u, channel)
            seen.append(home)
            group = [v for v in plot.units if scaled(v, channel) and chart.home(v, channel) is home]
            found = [d for v in group for d in scaled(v, channel) if not ("axis" in d and d["axis"] is None)]
            if not found:
                continue
            member = lambda name, default: next((d["axis"][name] for d in found if name in (d.get("axis") or {})), default)
            side = member("orient", ("bottom", "top") [drawn > 0] if channel == "x" else ("left", "right")[drawn > 0])
            drawn += 1
            yield u, channel, side, found, member


def axes_in(chart, plot, width, height, copy):
    """The lines of grids, then of axes, and how far axes extend at each side."""
    grids, items, extents = [], [], dict.fromkeys(("left", "right", "top", "bottom"), F(0))
    for u, channel, side, found, member in plot_axes(chart, plot):
        s = chart.scale(u, channel, width, height, copy)
        holder = chart.holder(u, channel)
        facets = [v for v in u.round if v.kind == "facet"]
        inner = facets[facets.index(holder) + 1:] if holder else facets
        spots = copy.spots[len(copy.spots) - len(inner):] if inner else ()
        if not all(spot[channel == "y"] for spot in spots):
            continue
        size = width if channel == "x" else height
        count = int(member("tickCount", 0)) or max(1, min(1000, math.ceil(size / 40)))
        form = guide_format(found, "axis")
        continuous = s.kind in ("linear", "time")
        first = first_field(found)
        grid = member("grid", continuous and not (first and is_binned(first)))
        turned = member("labelAngle", 0 if channel == "y" or continuous else -90) != 0 and side in ("bottom", "top")
        parts = "".join(p for p, name in zip("ltd", ("labels", "ticks", "domain")) if member(name, True)) + ("g" if grid else "") + ("r" if turned else "")
        values = member("values", None)
        ticks = times(s.n[0], s.n[1], count) if s.kind == "time" else ()
        labels = moments(s, s.ticks(count, ticks) if values is None else values, form)
        answer = axis_answer(s, side, parts, joined_title(found, "axis"), count, values, form, width, height, extents[side], ticks, labels)
        if answer == "overflow":
            raise Overflow
        extent, _, rest = answer.partition(" grid ")
        lines, _, rest = rest.partition("items ")
        extents[side] = min(LARGEST, extents[side] + F(extent))
        grids += lines_in(lines)
        items += lines_in(rest)
    return grids + items, extents


def legend_keys(chart):
    """The scales that may have legends: by channel, by the object that has the scale, by first view."""
    found = []
    for place, channel in enumerate(LEGENDS):
        seen = []
        for u in chart.units:
            if not scaled(u, channel) or chart.home(u, channel) in seen:
                continue
            seen.append(chart.home(u, channel))
            holder = chart.holder(u, channel)
            found.append(((place, 0 if holder is None else holder.number + 1, u.number), channel, u, holder))
    return found


def legends_at(chart, holder, copy):
    """The legends of the scales that an object has, in a copy of it."""
    for key, channel, u, of in legend_keys(chart):
        if of is not holder:
            continue
        units = chart.sharers(u, channel)
        found = [d for _, d in chart.says(units, channel) if not ("legend" in d and d["legend"] is None)]
        if not found:
            continue
        s = chart.scale(u, channel, F(0), F(0), copy)
        form = guide_format(found, "legend")
        ticks = times(s.n[0], s.n[1], 5) if s.kind in ("time", "timeramp") else ()
        labels = moments(s, s.ticks(5, ticks), form)
        answer = legend_answer(s, channel, joined_title(found, "legend"), form, "#4c78a8", ticks, labels)
        if answer == "overflow":
            raise Overflow
        size, _, rest = answer.partition(" items ")
        across, down = size.split(" ")
        yield key, F(across), F(down), lines_in(rest)


# ---- layout


@dataclass
class Plot:
    """A plot as it is drawn: its view and copy, its size, and its items that can be clicked on, each with its unit and row."""

    view: View
    copy: Copy
    width: F
    height: F
    items: list


@dataclass
class Box:
    """How far a view reaches round its corner, and its panels and legends."""

    left: F
    top: F
    right: F
    bottom: F
    panels: list
    legends: list
    has_plot: bool


def centred(words, x, y):
    return line_of(f"text {said(x)} {said(y)} upright middle 13 bold {words} #000 none 1 1")


def plot_box(chart, plot, copy):
    width, height = chart.size(plot, "x", copy), chart.size(plot, "y", copy)
    guides, e = axes_in(chart, plot, width, height, copy)
    items = [(line, u, row) for u in plot.units for line, row in Here(chart, u, width, height, copy).items()]
    here = Plot(plot, copy, width, height, [(line, u, row) for line, u, row in items if row is not None])
    headers = []
    for beside, words in copy.headers:
        if beside:
            place, side = f"{said(-(e['left'] + 5))} {said(near(height / 2))} turned", "left"
        else:
            place, side = f"{said(near(width / 2))} {said(-(e['top'] + 5))} upright", "top"
        headers.append(line_of(f"text {place} middle 10 plain {words} #000 none 1 1"))
        e[side] += 15
    title = next((v.spec["title"] for v in titled(plot) if "title" in v.spec), None)
    lines = headers + guides + [line for line, _, _ in items]
    if title is not None:
        lines = [centred(title, near(width / 2), -(e["top"] + 10))] + lines
        e["top"] += 23
    return Box(e["left"], e["top"], width + e["right"], height + e["bottom"], [(F(0), F(0), lines, here)], [], True)


def titled(plot):
    """A plot before the views in it, depth-first."""
    yield plot
    for v in plot.inside:
        yield from titled(v)


def grid_box(cells, columns, spacing, title):
    above = F(23) if title is not None else F(0)
    panels, xs, x = [], [], F(0)
    for k in range(min(columns, len(cells))):
        line = cells[k::columns]
        xs.append(x + max(c.left for c in line))
        x = xs[-1] + max(c.right for c in line) + spacing
    y = above
    for k in range(0, len(cells), columns):
        row = cells[k:k + columns]
        y += max(c.top for c in row)
        for at, c in zip(xs, row):
            panels += [(at + dx, y + dy, lines, here) for dx, dy, lines, here in c.panels]
        y += max(c.bottom for c in row) + spacing
    across, down = (x - spacing, y - spacing) if cells else (F(0), above)
    if title is not None:
        panels.insert(0, (F(0), F(0), [centred(title, near(across / 2), F(13))], None))
    return Box(F(0), F(0), across, down, panels, [g for c in cells for g in c.legends], any(c.has_plot for c in cells))


def facet_cells(chart, facet, copy, whole):
    """The cells of each field of a facet, in their order."""
    found = []
    for c, d in facet.fields:
        name = names_of(c, d)[0]
        cells = [row.get(name) for u in facet.units for row in copy.rows[u.number]]

        def made(cell):
            first = facet.units[0]
            rows = [row for row in whole.begun[first.number] if same(row.get(name), cell)]
            op, of = sort_over(first, d["sort"])
            return given(op, [None if of is None else row.get(of) for row in rows]) if rows else None

        found.append(ordered(cells, d.get("sort", "ascending"), made))
    return found


def facet_columns(facet, count, cells):
    if [c for c, _ in facet.fields] == ["facet"]:
        asked = facet.spec.get("columns", facet.fields[0][1].get("columns"))
        return max(1, count if asked is None else int(asked))
    if [c for c, _ in facet.fields] == ["row"]:
        return 1
    return max(1, len(cells[-1]))


def copies_in(chart, facet, copy, whole):
    cells = facet_cells(chart, facet, copy, whole)
    keys = list(itertools.product(*cells))
    columns = facet_columns(facet, len(keys), cells)
    names = [names_of(c, d)[0] for c, d in facet.fields]
    copies = []
    for i, key in enumerate(keys):
        part = lambda rows: {u: [row for row in of if all(same(row.get(n), c) for n, c in zip(names, key))] for u, of in rows.items()}
        headers = tuple((c == "row", display(cell)) for (c, d), cell in zip(facet.fields, key) if d.get("header", {}).get("labels", True))
        copies.append(Copy(part(copy.rows), part(copy.begun), (copy.cells or ()) + tuple(zip(names, key)), headers + copy.headers,
                           copy.spots + ((i + columns >= len(keys), i % columns == 0),)))
        copies[-1].held = copy.held | {facet.number: copies[-1]}
    return copies, columns


def count_panels(chart, view, copy, whole):
    if view.kind in ("unit", "layer"):
        return int(copy.cells is not None)
    copies = copies_in(chart, view, copy, whole)[0] if view.kind == "facet" else [copy]
    return sum(count_panels(chart, v, c, whole) for c in copies for v in view.inside)


def box_of(chart, view, copy, whole):
    if view.kind in ("unit", "layer"):
        return plot_box(chart, view, copy)
    spacing = F(view.spec.get("spacing", 20))
    if view.kind != "facet":
        cells = [box_of(chart, v, copy, whole) for v in view.inside]
        columns = {"hconcat": len(cells), "vconcat": 1, "concat": int(view.spec.get("columns", len(cells)))}[view.kind]
        return grid_box(cells, max(1, columns), spacing, view.spec.get("title"))
    copies, columns = copies_in(chart, view, copy, whole)
    cells = []
    for part in copies:
        for key, channel, u, of in scales_of(chart):
            if of is view:
                chart.domain(chart.sharers(u, channel), channel, part)
        box = box_of(chart, view.inside[0], part, whole)
        own = list(legends_at(chart, view, part)) if box.has_plot else []
        box.legends = own + box.legends
        cells.append(box)
    return grid_box(cells, columns, spacing, view.spec.get("title"))


def scales_of(chart):
    for channel in SCALED:
        for u in chart.units:
            if scaled(u, channel):
                yield None, channel, u, chart.holder(u, channel)


def panels_of(chart):
    """The panels of a chart, each with its corner, its lines and its plot, and the size of the picture."""
    spec = chart.spec
    mentioned = [t for v in {id(v): v for u in chart.units for v in u.round}.values() for t in v.spec.get("transform", [])]
    if chart.lost and any("lost" in json.dumps(t, default=str) for t in mentioned):
        raise Overflow
    found = [rows_of(u, chart.source_of(u), chart.values, chart.rows_of_data) for u in chart.units]
    whole = chart.whole = Copy({i: rows for i, (rows, _) in enumerate(found)}, {i: begun for i, (_, begun) in enumerate(found)})
    for f in chart.facets:
        facet_cells(chart, f, whole, whole)
    count = count_panels(chart, chart.top, whole, whole)
    if count > MOST_PANELS:
        raise Panels(count)
    if chart.lost:
        raise Overflow
    for _, channel, u, of in scales_of(chart):
        if of is None:
            chart.domain(chart.sharers(u, channel), channel, whole)
    box = box_of(chart, chart.top, whole, whole)
    legends = (list(legends_at(chart, None, whole)) if box.has_plot else []) + box.legends
    padding = F(spec.get("padding", 5))
    panels = [(padding + box.left + x, padding + box.top + y, lines, here) for x, y, lines, here in box.panels]
    across, down = box.left + box.right, box.top + box.bottom
    top, reach_, lower = F(0), across, down
    for _, w, h, lines in sorted(legends, key=lambda g: g[0]):
        panels.append((padding + across + 18, padding + top, lines, None))
        reach_, lower, top = max(reach_, across + 18 + w), max(lower, top + h), top + h + 18
    for s in chart.selections:
        for _, _, lines, here in panels:
            if here is not None and brush_in(chart, s, here):
                lines.append(brush_in(chart, s, here))
                break
    return panels, cut(reach_ + 2 * padding), cut(lower + 2 * padding)


def brush_in(chart, selection, here):
    """The brush of a selection where it stands in this plot."""
    held = chart.values[selection.name]
    if not held.extents or held.cells != here.copy.cells or held.unit not in [u.number for u in here.view.units]:
        return None
    unit, spans = chart.units[held.unit], {"x": (F(0), here.width), "y": (F(0), here.height)}
    for channel, _, _, lo, hi in held.extents:
        s, size = chart.scale(unit, channel, here.width, here.height, here.copy), spans[channel][1]
        a, b = sorted(min(max(reach(s.place(v)), F(0)), size) for v in (lo, hi))
        spans[channel] = a, b - a
    (x, width), (y, height) = spans["x"], spans["y"]
    return painted("rect" + pairs(x=x, y=y, width=width, height=height), "#333", None, F(1), F(1, 8))


def picture_of(spec, *state):
    """The lines of the picture of a specification, as it opens or in a state."""
    panels, across, down = panels_of(Chart(with_plain_names(spec), *state))
    yield f"S({said(across)},{said(down)})"
    for x, y, lines, _ in panels:
        yield f'<g transform="translate({said(cut(x))},{said(cut(y))})">'
        yield from lines
        yield "</g>"


def answer_of(spec):
    try:
        return "\n".join(picture_of(spec))
    except Overflow:
        return "Overflow"
    except Panels as e:
        return f"Panels[{e.args[0]}]"


def svg_of(lines):
    """The text of a picture."""
    first, *rest = lines
    across, down = first.removeprefix("S(").removesuffix(")").split(",")
    head = f'<svg xmlns="http://www.w3.org/2000/svg" version="1.1" width="{across}" height="{down}" viewBox="0 0 {across} {down}">'
    return "\n".join([head, *rest, "</svg>", ""])


# ---- scripts


def is_hit(line, x, y):
    """Whether an item, of which this is the line, is at a point."""
    read = lambda name: F(re.search(rf' {name}="([^"]*)"', line)[1])
    if line.startswith("<circle"):
        return (x - read("cx")) ** 2 + (y - read("cy")) ** 2 <= read("r") ** 2
    if line.startswith("<rect"):
        return read("x") <= x <= read("x") + read("width") and read("y") <= y <= read("y") + read("height")
    points = [tuple(map(F, p.split(","))) for p in re.findall(r"[ML](\S+,\S+?)(?=[ \"Z])", line)]
    left, right = min(p[0] for p in points), max(p[0] for p in points)
    middle, r = (left + right) / 2, (right - left) / 2
    level = sum((min(p[1] for p in points), max(p[1] for p in points))) / 2
    return abs(x - middle) <= r and abs(y - level) <= r


class Live:
    """A specification whose rows, parameters and selections change."""

    def __init__(self, spec):
        self.spec, self.given, self.stores = with_plain_names(spec), {}, {}
        self.rows, self.ids = rows_given(self.spec)

    def chart(self):
        return Chart(self.spec, self.rows, self.given, self.stores)

    def picture(self):
        return svg_of(picture_of(self.spec, self.rows, self.given, self.stores))

    def numbered(self, rows):
        first, self.ids = self.ids, self.ids + len(rows)
        return [row | {"_vgsid_": F(first + i)} for i, row in enumerate(rows)]

    def changed(self, source, change):
        entries, names = change.get("modify", []), set()
        if not change.keys() <= {"remove", "modify", "insert"} or not isinstance(change.get("insert", []), list) or not isinstance(entries, list):
            raise NoReading
        for e in entries:
            if not isinstance(e, dict) or e.keys() != {"where", "field", "set"} or not isinstance(e["field"], str):
                raise NoReading
        for text in [change.get("remove", "true")] + [e[k] for e in entries for k in ("where", "set")]:
            read_as_expression(text, names)
        chart = self.chart()
        if source not in self.rows or names - chart.values.keys():
            return "refused name"
        for i, row in enumerate(change.get("insert", [])):
            if isinstance(row, list):
                return f'refused row {i} ""'
            for name, cell in row.items() if isinstance(row, dict) else [("data", row)]:
                if is_number(cell) and abs(near(cell)) > MOST:
                    return f'refused row {i} "{name}"'
        kept = []
        for row in self.rows[source]:
            if "remove" in change and truthy(value_of(change["remove"], row, chart.values)):
                continue
            new = dict(row)
            for e in entries:
                if truthy(value_of(e["where"], row, chart.values)):
                    new[e["field"]] = value_of(e["set"], row, chart.values)
            kept.append(new)
        self.rows = self.rows | {source: kept + self.numbered([row_of_json(row) for row in change.get("insert", [])])}
        return "ok"

    def settled(self, name, value):
        is_pair = isinstance(value, list) and len(value) == 2 and all(map(is_number, value))
        is_cell = value is None or isinstance(value, (bool, str)) or is_number(value)
        if not (is_pair or is_cell) or any(is_number(n) and abs(near(n)) > MOST for n in listed(value)):
            raise NoReading
        if not any(p["name"] == name and "expr" not in p and "select" not in p for _, p in self.chart().listed):
            return "refused name"
        self.given = self.given | {name: tuple(value) if isinstance(value, list) else value}
        return "ok"

    def event(self, kind_, x, y, *to):
        chart = self.chart()
        at = None
        for left, top, _, here in panels_of(chart)[0]:
            if here is not None and 0 <= x - left <= here.width and 0 <= y - top <= here.height:
                at = left, top, here
        if at is None:
            return "ok"
        left, top, here = at
        inside = {u.number for u in here.view.units}
        stores = dict(self.stores)
        for s in chart.selections:
            here_units = [n for n in s.units if n in inside]
            if not here_units:
                continue
            held = chart.values[s.name]
            tuples, extents = None, None
            if kind_ == "double":
                tuples = []
            elif kind_ in ("click", "shift") and s.kind == "point":
                hits = [(u, row) for line, u, row in here.items if u.number in here_units and is_hit(line, x - left, y - top)]
                found = {n: hits[-1][1].get(n) for n in s.fields(hits[-1][0])} if hits else None
                if kind_ == "click":
                    tuples = [found] if hits else []
                elif hits:
                    tuples = [t for t in held.tuples if t != found] if found in held.tuples else held.tuples + [found]
            elif kind_ == "drag" and s.kind == "interval":
                extents = self.extents(chart, s, chart.units[here_units[0]], here, x - left, y - top, to[0] - left, to[1] - top)
            if tuples is not None or extents is not None:
                new = Store(tuples or [], extents or [])
                if not new.is_empty():
                    new.cells, new.unit = here.copy.cells, min(here_units)
                stores[s.name] = new
        self.stores = stores
        return "ok"

    def extents(self, chart, s, unit, here, x, y, to_x, to_y):
        """The ends of a drag along the channels of an interval; none where one of them is a point."""
        made = []
        for channel in s.channels():
            scale = chart.scale(unit, channel, here.width, here.height, here.copy)
            d0, d1, r0, r1 = scale.n
            size, ends = (here.width, (x, to_x)) if channel == "x" else (here.height, (y, to_y))
            if r0 == r1:
                return []
            back = [d0 + near((min(max(p, F(0)), size) - r0) * (d1 - d0) / (r1 - r0)) for p in ends]
            lo, hi = sorted(min(max(v, min(d0, d1)), max(d0, d1)) for v in back)
            if lo == hi:
                return []
            d = definitions(unit, channel)[0]
            made.append((channel, d["field"] if is_binned(d) else names_of(channel, d)[0], scale.kind == "time", lo, hi))
        return made

    def reply(self, line):
        before = self.given, self.rows, self.stores, self.ids
        try:
            words = json.loads(line, parse_float=F, parse_int=F)
            if words == ["print"]:
                return self.picture()
            if not isinstance(words, list) or len(words) < 3:
                raise NoReading
            if words[0] == "change" and isinstance(words[1], str) and isinstance(words[2], dict) and len(words) == 3:
                answer = self.changed(*words[1:])
            elif words[0] == "set" and isinstance(words[1], str) and len(words) == 3:
                answer = self.settled(*words[1:])
            elif words[0] in ("click", "shift", "double", "drag") and len(words) == (5 if words[0] == "drag" else 3) and all(map(is_number, words[1:])):
                answer = self.event(words[0], *words[1:])
            else:
                raise NoReading
            if answer == "ok":
                self.picture()
        except (NoReading, json.JSONDecodeError):
            answer = "refused line"
        except Panels:
            answer = "refused limit"
        except Overflow:
            answer = "refused overflow"
        if answer != "ok":
            self.given, self.rows, self.stores, self.ids = before
        return answer + "\n"


def replies_of(spec, script):
    live = Live(spec)
    return "".join(live.reply(line) for line in script.splitlines() if line and not line.startswith("#"))


def compared(names):
    """The stored pictures and replies that differ from what is drawn here."""
    wrong = []
    for name in names:
        start = name.removesuffix(".json").removesuffix(".script")
        with open(start + ".json", encoding="utf-8") as file:
            spec = json.load(file, parse_float=F, parse_int=F)
        if name.endswith(".script"):
            with open(name, encoding="utf-8") as file:
                stored, answer = start + ".replies", replies_of(spec, file.read())
        else:
            stored, answer = start + ".svg", svg_of(picture_of(spec))
        try:
            with open(stored, encoding="utf-8") as file:
                is_same = file.read() == answer
        except FileNotFoundError:
            is_same = False
        wrong += [] if is_same else [stored]
    return wrong


def main(words):
    if not words:
        wrong = compared(sorted(glob.glob("examples/vega-lite/*.json") + glob.glob("examples/vega-lite/*.script")))
        for stored in wrong:
            print(f"vl_pictures: {stored} differs", file=sys.stderr)
        return 1 if wrong else 0
    for name in words:
        with open(name.removesuffix(".script") + ".json" if name.endswith(".script") else name, encoding="utf-8") as file:
            spec = json.load(file, parse_float=F, parse_int=F)
        if name.endswith(".script"):
            with open(name, encoding="utf-8") as file:
                print(replies_of(spec, file.read()), end="")
        else:
            print(answer_of(spec))
    return 0


if __name__ == "__main__":
    sys.exit(main(sys.argv[1:]))
