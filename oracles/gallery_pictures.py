#!/usr/bin/env python3
"""Draws the examples of docs/GALLERY.md apart from the program, and compares the pictures and replies that are stored beside them.

Usage: oracles/gallery_pictures.py [NAME..], at the top of the repository, with examples/x.json for a picture and examples/x for the replies to
x.script; without a word all that GALLERY.md shows, and the replies to their scripts. With `-` first they are printed and not compared.

Panels, marks and guides are drawn by oracles/chart_pictures.py and oracles/mark_pictures.py. Here stand the rest of what the gallery has:
expressions, all transforms, ramps, domains with every sort, ticks and labels of instants from milliseconds to centuries, and all lines of
scripts but those of the mouse.
"""
import csv
import datetime
import json
import math
import re
import sys
from dataclasses import replace
from fractions import Fraction as F

import chart_pictures
import mark_pictures
from chart_pictures import Held, Panels, picture_of
from guide_table import Scale, display, is_number, is_number_format, near, step
from mark_pictures import CATEGORY, SHAPES, in_order, listed, rank

MOST = 10 ** 15
FIRST, LAST = -62135596800000, 253370764799999
SECOND, MINUTE, HOUR, DAY = 1000, 60000, 3600000, 86400000
YEAR = 365 * DAY
EPOCH = datetime.datetime(1970, 1, 1)
INTERVALS = (
    [(SECOND * n, "second", n) for n in (1, 5, 15, 30)] + [(MINUTE * n, "minute", n) for n in (1, 5, 15, 30)]
    + [(HOUR * n, "hour", n) for n in (1, 3, 6, 12)] + [(DAY, "day", 1), (2 * DAY, "day", 2), (7 * DAY, "week", 1)]
    + [(30 * DAY, "month", 1), (90 * DAY, "month", 3), (YEAR, "year", 1)]
)
# the parts that a time unit keeps, and the smallest unit of them
TIME_UNITS = {
    "year": ("Y", "year"), "yearquarter": ("YQ", "quarter"), "quarter": ("Q", "quarter"), "yearmonth": ("YM", "month"), "month": ("M", "month"),
    "yearmonthdate": ("YMD", "day"), "monthdate": ("MD", "day"), "date": ("D", "day"), "day": ("W", "day"), "yearmonthdatehours": ("YMDh", "hour"),
    "hours": ("h", "hour"), "yearmonthdatehoursminutes": ("YMDhm", "minute"), "hoursminutes": ("hm", "minute"), "minutes": ("m", "minute"),
    "yearmonthdatehoursminutesseconds": ("YMDhms", "second"), "seconds": ("s", "second"),
}
PARTS = {
    "year": lambda t: t.year, "quarter": lambda t: (t.month + 2) // 3, "month": lambda t: t.month - 1, "date": lambda t: t.day,
    "day": lambda t: t.isoweekday() % 7, "hours": lambda t: t.hour, "minutes": lambda t: t.minute, "seconds": lambda t: t.second,
    "milliseconds": lambda t: t.microsecond // 1000,
}
MONTHS = "Jan Feb Mar Apr May Jun Jul Aug Sep Oct Nov Dec".split()
OPERATORS = ["||"], ["&&"], ["===", "!==", "==", "!="], ["<=", ">=", "<", ">"], ["+", "-"], ["*", "/", "%"]
TOKEN = re.compile(
    r"\s*(?:(?P<number>(?:0|[1-9]\d*)(?:\.\d+)?(?:[eE][+-]?\d+)?)(?![\w$.])|(?P<name>[A-Za-z_$][\w$]*)"
    r"|(?P<text>'(?:[^'\\]|\\[\\'\"ntr])*'|\"(?:[^\"\\]|\\[\\'\"ntr])*\")"
    r"|(?P<mark>===|!==|==|!=|<=|>=|&&|\|\||[-+*/%<>!?:,.()\[\]]))", re.ASCII)


class NoReading(Exception):
    """A text is no expression, or a line no command."""


class Overflow(Exception):
    """A number out of range."""


def in_range(x):
    if abs(x) > MOST:
        raise Overflow
    return near(x)


# Instants


def moment(at):
    return EPOCH + datetime.timedelta(milliseconds=math.floor(at))


def milliseconds(t):
    return (t - EPOCH) // datetime.timedelta(milliseconds=1)


def instant(text):
    """The instant of a text in milliseconds, None where it has none."""
    m = re.fullmatch(r"(\d{4})(?:-(\d\d)(?:-(\d\d)(?:[T ](\d\d):(\d\d)(?::(\d\d)(?:\.(\d{1,9}))?)?(Z|[+-]\d\d:\d\d)?)?)?)?", text)
    if m is None:
        m = re.fullmatch(r"(\d{4})/(\d\d)/(\d\d)()()()()()", text)
    if m is None:
        named = re.fullmatch(r"([A-Z][a-z]{2}) (\d{1,2}) (\d{4})", text)
        if named is None or named[1] not in MONTHS:
            return None
        parts, fraction, zone = (int(named[3]), MONTHS.index(named[1]) + 1, int(named[2])), "", None
    else:
        given = [int(m[i]) if m[i] else None for i in range(1, 7)]
        parts, fraction, zone = tuple(g if g is not None else 1 if i in (1, 2) else 0 for i, g in enumerate(given)), m[7] or "", m[8]
    try:
        at = milliseconds(datetime.datetime(*parts)) + int((fraction + "000")[:3])
    except ValueError:
        return None
    if zone and zone != "Z":
        away = int(zone[1:3]) * 60 + int(zone[4:])
        at -= (1 if zone[0] == "+" else -1) * away * MINUTE
    return F(at) if FIRST <= at <= LAST else None


def part(at, name):
    return F(PARTS[name](moment(at))) if FIRST <= at <= LAST else None


def made_of(parts):
    """The instant of a year, a month from 0 and further parts."""
    if any(not is_number(p) or p.denominator != 1 for p in parts):
        return None
    year, month, *rest = (int(p) for p in parts)
    date, *smaller = rest or [1]
    year, month = year + month // 12, month % 12
    if not 1 <= year <= 9998:
        return None
    at = milliseconds(datetime.datetime(year, month + 1, 1)) + (date - 1) * DAY
    at += sum(n * length for n, length in zip(smaller, (HOUR, MINUTE, SECOND, 1)))
    return F(at) if FIRST <= at <= LAST else None


def by_pattern(at, pattern):
    t = moment(at)
    own = {
        "Y": f"{t.year:04}", "L": f"{t.microsecond // 1000:03}", "q": str((t.month + 2) // 3), "%": "%", "m": f"{t.month:02}", "d": f"{t.day:02}",
        "H": f"{t.hour:02}", "M": f"{t.minute:02}", "S": f"{t.second:02}", "I": f"{(t.hour + 11) % 12 + 1:02}", "p": "AM" if t.hour < 12 else "PM",
        "b": MONTHS[t.month - 1], "B": t.strftime("%B"), "a": t.strftime("%a"),
    }
    return re.sub(r"%(.)", lambda m: own[m[1]], pattern)


def time_label(at, form=None):
    t = moment(at)
    if form is not None:
        return by_pattern(at, form)
    if t.microsecond:
        return by_pattern(at, ".%L")
    if t.second or t.minute or t.hour:
        return by_pattern(at, ":%S" if t.second else "%I:%M" if t.minute else "%I %p")
    if t.day != 1:
        return by_pattern(at, "%b %d" if t.isoweekday() == 7 else "%a %d")
    return by_pattern(at, "%B" if t.month != 1 else "%Y")


def time_unit(cell, unit):
    """The start and the end of a time unit."""
    if not is_number(cell) or not FIRST <= cell <= LAST:
        return None, None
    t, (kept, smallest) = moment(cell), TIME_UNITS[unit.removeprefix("utc")]
    month = t.month if "M" in kept else (t.month + 2) // 3 * 3 - 2 if "Q" in kept else 1
    date = t.day if "D" in kept else 1 + t.isoweekday() % 7 if "W" in kept else 1
    smaller = (n if letter in kept else 0 for letter, n in (("h", t.hour), ("m", t.minute), ("s", t.second)))
    start = datetime.datetime(t.year if "Y" in kept else 2012, month, date, *smaller)
    months = {"month": 1, "quarter": 3, "year": 12}.get(smallest)
    if months is None:
        end = milliseconds(start) + {"day": DAY, "hour": HOUR, "minute": MINUTE, "second": SECOND}[smallest]
    else:
        end = milliseconds(datetime.datetime(start.year + (start.month - 1 + months) // 12, (start.month - 1 + months) % 12 + 1, 1))
    return F(milliseconds(start)), F(end)


def interval(lo, hi, count):
    """The unit of the ticks of a domain of instants, and of how many of it there is one."""
    t = F(hi - lo) / count
    if t < SECOND:
        return "millisecond", int(max(step(lo, hi, count), 1))
    if t >= YEAR:
        return "year", int(max(step(F(lo) / YEAR, F(hi) / YEAR, count), 1))
    a, b = next((a, b) for a, b in zip(INTERVALS, INTERVALS[1:]) if a[0] <= t < b[0])
    return (a if t * t < a[0] * b[0] else b)[1:]


def times(lo, hi, count):
    """The ticks of a domain of instants."""
    if lo == hi:
        return [lo]
    unit, n = interval(lo, hi, count)
    length = {"millisecond": n, "second": SECOND, "minute": MINUTE, "hour": HOUR}.get(unit, DAY)
    if unit == "year":
        first, last = moment(lo).year, moment(hi).year
        found = (milliseconds(datetime.datetime(y, 1, 1)) for y in range(-(-first // n) * n or n, last + 1, n))
        return [F(at) for at in found if lo <= at <= hi]
    is_one = {
        "millisecond": lambda t: True, "second": lambda t: t.second % n == 0, "minute": lambda t: t.minute % n == 0,
        "hour": lambda t: t.hour % n == 0, "day": lambda t: (t.day - 1) % n == 0, "week": lambda t: t.isoweekday() == 7,
        "month": lambda t: t.day == 1 and (t.month - 1) % n == 0,
    }[unit]
    return [F(at) for at in range(math.ceil(lo / length) * length, math.floor(hi) + 1, length) if is_one(moment(at))]


# Expressions


def tokens_of(text):
    tokens, at = [], 0
    while text[at:].strip(" \t\n\r"):
        m = TOKEN.match(text, at)
        if m is None:
            raise NoReading(text)
        tokens.append((m.lastgroup, m[m.lastgroup]))
        at = m.end()
    return tokens + [("end", "")]


def unquoted(text):
    return re.sub(r"\\(.)", lambda m: {"n": "\n", "t": "\t", "r": "\r"}.get(m[1], m[1]), text[1:-1])


class Reader:
    """Reads an expression as functions of a row and of values."""

    def __init__(self, text):
        self.tokens, self.at, self.names, self.has_length = tokens_of(text), 0, set(), False

    def take(self, *marks):
        kind, text = self.tokens[self.at]
        if kind == "mark" and text in marks:
            self.at += 1
            return text
        return None

    def want(self, mark):
        if not self.take(mark):
            raise NoReading

    def next(self):
        self.at += 1
        return self.tokens[self.at - 1]

    def whole(self):
        read = self.choice()
        if self.tokens[self.at][0] != "end":
            raise NoReading
        return read

    def choice(self):
        test = self.binary(0)
        if not self.take("?"):
            return test
        yes = self.choice()
        self.want(":")
        no = self.choice()
        return lambda row, values: yes(row, values) if truthy(test(row, values)) else no(row, values)

    def binary(self, level):
        if level == len(OPERATORS):
            return self.unary()
        left = self.binary(level + 1)
        while mark := self.take(*OPERATORS[level]):
            left = self.joined(mark, left, self.binary(level + 1))
        return left

    @staticmethod
    def joined(mark, left, right):
        if mark == "||":
            return lambda row, values: a if truthy(a := left(row, values)) else right(row, values)
        if mark == "&&":
            return lambda row, values: right(row, values) if truthy(a := left(row, values)) else a
        return lambda row, values: operated(mark, left(row, values), right(row, values))

    def unary(self):
        mark = self.take("!", "-", "+")
        if mark is None:
            return self.primary()
        of = self.unary()
        if mark == "!":
            return lambda row, values: not truthy(of(row, values))
        sign = -1 if mark == "-" else 1
        return lambda row, values: None if (n := to_number(of(row, values))) is None else sign * n

    def arguments(self, end):
        read = []
        if not self.take(end):
            read.append(self.choice())
            while not self.take(end):
                self.want(",")
                read.append(self.choice())
        return read

    def primary(self):
        kind, text = self.next()
        if kind == "number":
            value = near(F(text))
            return lambda row, values: value
        if kind == "text":
            words = unquoted(text)
            return lambda row, values: words
        if kind == "mark" and text == "(":
            read = self.choice()
            self.want(")")
            return read
        if kind == "mark" and text == "[":
            two = self.arguments("]")
            if len(two) != 2:
                raise NoReading
            return lambda row, values: pair if all(map(is_number, pair := tuple(one(row, values) for one in two))) else None
        if kind != "name":
            raise NoReading
        if text in ("true", "false", "null"):
            constant = {"true": True, "false": False, "null": None}[text]
            return lambda row, values: constant
        if text == "datum":
            # the row itself, for the test of a selection
            return (lambda row, values: row) if self.tokens[self.at] == ("mark", ")") else self.field()
        if text == "domain" and self.take("("):
            name = unquoted(self.next()[1])
            self.want(")")
            self.want(".")
            assert self.next()[1] == "length"
            self.has_length = True
            return lambda row, values: F(values["length_of"](name))
        if self.take("("):
            return called(text, self.arguments(")"))
        self.names.add(text)
        return lambda row, values: values.get(text)

    def field(self):
        if self.take("."):
            kind, name = self.next()
        else:
            self.want("[")
            kind, name = self.next()
            name = unquoted(name)
            self.want("]")
        if kind not in ("name", "text"):
            raise NoReading
        return lambda row, values: row.get(name)


def truthy(cell):
    return cell not in (None, False, 0, "")


def to_number(cell):
    if cell is True or cell is False:
        return F(int(cell))
    if isinstance(cell, str):
        return F(cell) if re.fullmatch(r"-?(0|[1-9]\d*)(\.\d+)?", cell) else None
    return cell if is_number(cell) else None


def kind_of(cell):
    kinds = {type(None): "null", bool: "flag", str: "text", tuple: "pair"}
    return kinds.get(type(cell), "number")


def operated(mark, a, b):
    if mark in ("===", "==", "!==", "!="):
        if kind_of(a) == kind_of(b):
            same = a == b
        else:
            same = len(mark) == 2 and to_number(a) is not None and to_number(a) == to_number(b)
        return same if mark[0] == "=" else not same
    if mark in ("<", "<=", ">", ">="):
        if kind_of(a) != kind_of(b) or kind_of(a) not in ("number", "text"):
            return None
        a, b = (a.encode(), b.encode()) if isinstance(a, str) else (a, b)
        return {"<": a < b, "<=": a <= b, ">": a > b, ">=": a >= b}[mark]
    if mark == "+" and "text" in (kind_of(a), kind_of(b)) and "pair" not in (kind_of(a), kind_of(b)):
        return display(a) + display(b)
    if not (is_number(a) and is_number(b)):
        return None
    if mark in "/%" and b == 0:
        return None
    return in_range({"+": lambda: a + b, "-": lambda: a - b, "*": lambda: a * b, "/": lambda: a / b, "%": lambda: a - b * int(a / b)}[mark]())


def numbers(of):
    return lambda *cells: of(*cells) if all(map(is_number, cells)) else None


CALLS = {
    "isValid": lambda c: c is not None, "isNumber": is_number, "isString": lambda c: isinstance(c, str), "isBoolean": lambda c: isinstance(c, bool),
    "toNumber": to_number, "toString": display, "toDate": lambda c: instant(c) if isinstance(c, str) else c if is_number(c) else None,
    "abs": numbers(abs), "ceil": numbers(lambda x: F(math.ceil(x))), "floor": numbers(lambda x: F(math.floor(x))),
    "sqrt": numbers(lambda x: None if x < 0 else F(math.isqrt(int(x * 10 ** 12)), 10 ** 6)), "round": numbers(lambda x: F(math.floor(x + F(1, 2)))),
    "min": numbers(min), "max": numbers(max), "clamp": numbers(lambda v, lo, hi: max(lo, min(v, hi))),
    "inrange": lambda v, p: None if not (is_number(v) and isinstance(p, tuple)) else min(p) <= v <= max(p),
    "length": lambda c: F(len(c.encode("utf-16-le")) // 2) if isinstance(c, str) else None,
    "bandspace": numbers(lambda n, i, o: F(0) if n == 0 else n - i + 2 * o if n - i + 2 * o > 0 else F(1)),
    "utc": lambda *parts: made_of(parts), "datetime": lambda *parts: made_of(parts),
    # selections as they are at first: nothing is kept
    "data": lambda store: "", "vlSelectionTest": lambda store, row: False,
}
for named in PARTS:
    CALLS[named] = CALLS["utc" + named] = numbers(lambda at, named=named: part(at, named))


def called(name, read):
    if name == "if":
        return lambda row, values: read[1](row, values) if truthy(read[0](row, values)) else read[2](row, values)
    if name not in CALLS:
        raise NoReading(name)
    return lambda row, values: CALLS[name](*(one(row, values) for one in read))


def value_of(expression, row, values={}):
    return Reader(expression).whole()(row, values)


# Rows and transforms


def cell_of_csv(text):
    return None if text == "" else near(F(text)) if re.fullmatch(r"-?(0|[1-9]\d*)(\.\d+)?([eE][+-]?\d+)?", text) else text


def cell_of_json(value):
    return None if isinstance(value, (list, dict)) else near(value) if is_number(value) else value


def row_of_json(value):
    return {k: cell_of_json(v) for k, v in value.items()} if isinstance(value, dict) else {"data": cell_of_json(value)}


def parsed(cell, kind, of_csv):
    """A cell as `parse` asks; a number of a file of CSV counts as its decimal for texts and flags."""
    if of_csv and kind in ("string", "boolean") and is_number(cell):
        cell = display(cell)
    if not isinstance(cell, str):
        return cell
    return {"number": to_number, "string": str, "date": instant, "boolean": lambda t: None if t == "" else t not in ("false", "0")}[kind](cell)


def rows_of_source(data):
    if "values" in data:
        values, of_csv = listed(data["values"]), False
    elif "url" not in data:
        return []
    else:
        of_csv = data.get("format", {}).get("type") == "csv"
        with open(data["url"], newline="", encoding="utf-8") as file:
            values = list(csv.DictReader(file)) if of_csv else listed(json.load(file, parse_float=F, parse_int=F))
    rows = [{k: cell_of_csv(v) for k, v in row.items()} for row in values] if of_csv else [row_of_json(v) for v in values]
    for name, kind in data.get("format", {}).get("parse", {}).items():
        for row in rows:
            if name in row:
                row[name] = parsed(row[name], kind, of_csv)
    return rows


def quartile(found, quarters):
    ordered, place = sorted(found), F((len(found) - 1) * quarters, 4)
    low = math.floor(place)
    return near(ordered[low] + (place - low) * (ordered[min(low + 1, len(ordered) - 1)] - ordered[low]))


def given(op, cells):
    """What an operation gives over cells."""
    found = [c for c in cells if is_number(c)]
    counts = {"count": len(cells), "valid": sum(c is not None for c in cells), "missing": sum(c is None for c in cells), "distinct": len(set(cells))}
    if op in counts:
        return F(counts[op])
    if op == "sum":
        return in_range(sum(found, F(0)))
    if not found:
        return None
    if op in ("mean", "average"):
        return near(sum(found) / len(found))
    return min(found) if op == "min" else max(found) if op == "max" else quartile(found, {"q1": 1, "median": 2, "q3": 3}[op])


def operations(t):
    """The operations of a transform with their fields, parameters and names."""
    at = lambda name, i: (t.get(name, []) + [None] * len(ops))[i]
    ops = t.get("ops", ["count"])
    for i, op in enumerate(ops):
        field = at("fields", i)
        yield op, field, at("params", i), at("as", i) or (f"{op}_{field}" if field else op)


def partitions_of(rows, t):
    found = {}
    for i, row in enumerate(rows):
        found.setdefault(tuple(row.get(f) for f in t.get("groupby", [])), []).append(i)
    return {key: in_order(places, t.get("sort"), lambda i: rows[i]) for key, places in found.items()}


def stacked(t, rows):
    made, offset = {}, t.get("offset", "zero")
    partitions = partitions_of(rows, t).values()
    wholes = {id(p): sum(abs(v) for i in p if is_number(v := rows[i].get(t["field"]))) for p in partitions}
    for p in partitions:
        up, down, whole = F(0), F(0), wholes[id(p)]
        start = near(F(max(wholes.values()) - whole) / 2) if offset == "center" else F(0)
        for i in p:
            v = rows[i].get(t["field"])
            if not is_number(v) or (offset == "normalize" and whole == 0):
                continue
            if offset == "zero":
                made[i] = (up, in_range(up + v)) if v >= 0 else (down, in_range(down + v))
                up, down = (up + v, down) if v >= 0 else (up, down + v)
            else:
                end = start + abs(v)
                made[i] = (start, end) if offset == "center" else (near(start / whole), near(end / whole))
                start = end
    names = t.get("as", ["y0", "y1"])
    return [row | dict(zip(names, made.get(i, (None, None)))) for i, row in enumerate(rows)]


def window(t, rows):
    made = [dict(row) for row in rows]
    before, after = (None if b is None else int(b) for b in t.get("frame", [None, 0]))
    for p in partitions_of(rows, t).values():
        sort = t.get("sort")
        peers = [tuple(rank(rows[i].get(f)) for f in listed(sort["field"])) if sort else i for i in p]
        for at, i in enumerate(p):
            low = 0 if before is None else max(0, min(len(p), at + before))
            high = len(p) if after is None else max(0, min(len(p), at + after + 1))
            if low < high and not t.get("ignorePeers", False):
                low, high = peers.index(peers[low]), len(p) - peers[::-1].index(peers[high - 1])
            for op, field, param, name in operations(t):
                cells = [rows[j].get(field) if field else None for j in p]
                by = int(param) if param is not None else 1
                framed = cells[low:high]
                made[i][name] = {
                    "row_number": lambda: F(at + 1), "rank": lambda: F(peers.index(peers[at]) + 1),
                    "dense_rank": lambda: F(len(set(peers[:peers.index(peers[at])])) + 1),
                    "lag": lambda: cells[at - by] if at >= by else None, "lead": lambda: cells[at + by] if at + by < len(p) else None,
                    "first_value": lambda: framed[0] if framed else None, "last_value": lambda: framed[-1] if framed else None,
                }.get(op, lambda: given(op, framed))()
    return made


def binned(t, rows, values):
    extent = t["extent"]
    extent = value_of(extent["signal"], {}, values) if isinstance(extent, dict) else tuple(extent)
    found = [c for row in rows if is_number(c := row.get(t["field"]))]
    names = t.get("as", ["bin0", "bin1"])
    if not found:
        return [row | dict.fromkeys(names) for row in rows]
    low, high = sorted(extent) if isinstance(extent, tuple) else (min(found), max(found))
    span = high - low or abs(low) or F(1)
    width = t.get("step") or next(c * F(10) ** k for k in range(-6, 16) for c in (1, 2, 5) if span / t.get("maxbins", 10) <= c * F(10) ** k)
    start = math.floor(low / width) * width
    stop = max(math.ceil(high / width) * width, start + width)
    made = []
    for row in rows:
        v = row.get(t["field"])
        at = min(math.floor((v - start) / width), (stop - start) / width - 1) if is_number(v) and start <= v <= stop else None
        made.append(row | dict(zip(names, (None, None) if at is None else (start + at * width, start + (at + 1) * width))))
    return made


def transformed(t, rows, lists, values):
    """Rows after a transform that isn't an extent."""
    kind, f = t["type"], t.get("field")
    if kind == "filter":
        return [row for row in rows if truthy(value_of(t["expr"], row, values))]
    if kind == "formula":
        return [row | {t["as"]: value_of(t["expr"], row, values)} for row in rows]
    if kind == "timeunit":
        return [row | dict(zip(t.get("as", ["unit0", "unit1"]), time_unit(row.get(f), t["units"]))) for row in rows]
    if kind == "bin":
        return binned(t, rows, values)
    if kind == "stack":
        return stacked(t, rows)
    if kind == "window":
        return window(t, rows)
    if kind in ("aggregate", "joinaggregate"):
        made = {}
        for key, places in partitions_of(rows, {"groupby": t.get("groupby", [])}).items():
            made[key] = {name: given(op, [rows[i].get(field) if field else None for i in places]) for op, field, _, name in operations(t)}
        fields = t.get("groupby", [])
        if kind == "aggregate":
            return [dict(zip(fields, key)) | more for key, more in made.items()]
        return [row | made[tuple(row.get(g) for g in fields)] for row in rows]
    if kind == "lookup":
        other = {row.get(t["key"]): row for row in lists[t["from"]]}
        names = t.get("as", t["values"])
        made = []
        for row in rows:
            there = other.get(row.get(t["fields"][0]))
            cells = [t.get("default")] * len(names) if there is None else [there.get(v) for v in t["values"]]
            made.append(row | dict(zip(names, cells)))
        return made
    assert kind == "fold"
    key, value = t.get("as", ["key", "value"])
    return [row | {key: name, value: row.get(name)} for row in rows for name in t["fields"]]


class Zoomed(Held):
    """A scale whose domain may be that of a signal's pair."""

    def over(self, width, height):
        pair = value_of(self.spec["domainRaw"]["signal"], {}, self.values) if "domainRaw" in self.spec else None
        if not isinstance(pair, tuple):
            return super().over(width, height)
        plain = {name: value for name, value in self.spec.items() if name not in ("zero", "nice", "domainRaw")}
        return replace(self, spec=plain | {"domain": list(pair), "zero": False}).over(width, height)


def entered(o, here, change, given_values=None):
    """What is known inside an object, as in chart_pictures, with all transforms and the signals of extents."""
    signals, fixed = o.get("signals", []), dict(here.values)
    settled = lambda: chart_pictures.signals_of(signals, fixed, given_values or {})
    lists = dict(here.lists)
    for data in o.get("data", []):
        if "source" in data:
            rows = [dict(row) for row in lists[data["source"]]]
        else:
            rows = change(data["name"], rows_of_source(data))
        for t in data.get("transform", []):
            if t["type"] == "extent":
                found = [c for row in rows if is_number(c := row.get(t["field"]))]
                fixed[t["signal"]] = (min(found), max(found)) if found else None
            else:
                rows = transformed(t, rows, lists, settled())
        lists[data["name"]] = rows
    values = settled()
    own = {s["name"]: Zoomed(s, lists, values, o["number"] == 0) for s in o.get("scales", [])}
    outer = {name: s for name, s in here.scales.items() if name not in own}
    return replace(here, values=values, lists=lists, scales=own | outer)


# Scales


def discrete_cells(domain, lists):
    references = domain.get("fields", [domain])
    rows = [(row.get(r["field"]), row) for r in references for row in lists[r["data"]]]
    cells, sort = list(dict.fromkeys(cell for cell, _ in rows)), domain.get("sort")
    if not sort:
        return cells
    cells = sorted(cells, key=rank)
    if sort is True:
        return cells
    backward = sort.get("order") == "descending"
    if "op" not in sort:
        return cells[::-1] if backward else cells
    made = {c: given(sort["op"], [row.get(sort["field"]) for cell, row in rows if cell == c]) for c in cells}
    return sorted(cells, key=lambda c: rank(made[c]), reverse=backward)


def scale_of(s, lists, width, height):
    domain, reach = s["domain"], s["range"]
    continuous = s["type"] in ("linear", "time")
    if not continuous:
        cells = discrete_cells(domain, lists) if isinstance(domain, dict) else domain
        if s["type"] == "ordinal":
            if reach == "ramp":
                shades = Scale("ramp", (0, max(1, len(cells) - 1)))
                reach = [shades.paint(F(k)) for k in range(len(cells))]
            entries = {"category": CATEGORY, "symbol": SHAPES}[reach] if isinstance(reach, str) else reach
            return Scale("ordinal", (), cells, entries[::-1] if s.get("reverse") else entries)
        ends = [F(0), width if reach == "width" else height] if isinstance(reach, str) else reach
        both = s.get("padding", F(0))
        return Scale(s["type"], (s.get("paddingInner", both), s.get("paddingOuter", both), *(ends[::-1] if s.get("reverse") else ends)), cells)
    if isinstance(domain, dict):
        domain = [row.get(r["field"]) for r in domain.get("fields", [domain]) for row in lists[r["data"]]]
    elif s["type"] == "time":
        domain = [instant(c) if isinstance(c, str) else c for c in domain]
    found = [c for c in domain if is_number(c) and (s["type"] == "linear" or FIRST <= c <= LAST)] or [F(0), F(1)]
    lo, hi = min(found), max(found)
    if s.get("zero", s["type"] == "linear"):
        lo, hi = min(lo, F(0)), max(hi, F(0))
    for _ in range(10 if s.get("nice") and lo < hi else 0):
        by = step(lo, hi, 10)
        lo, hi = math.floor(lo / by) * by, math.ceil(hi / by) * by
    if s["type"] == "time":
        lo, hi = max(lo, F(FIRST)), min(hi, F(LAST))
    if reach == "ramp":
        return Scale("ramp" if s["type"] == "linear" else "timeramp", (hi, lo) if s.get("reverse") else (lo, hi))
    ends = [F(0), width] if reach == "width" else [height, F(0)] if reach == "height" else reach
    return Scale(s["type"], (lo, hi, *(ends[::-1] if s.get("reverse") else ends)))


def labels_of(s, cells, form):
    """The labels of instants: those of a time scale, and by a pattern those of any numbers."""
    if form is not None and is_number_format(form) or form is None and s.kind != "time":
        return {}
    return {c: time_label(c, form) for c in [*cells, *s.domain] if is_number(c)}


chart_pictures.entered = entered
for module in (chart_pictures, mark_pictures):
    module.value_of, module.scale_of = value_of, scale_of
mark_pictures.times, mark_pictures.time_label, mark_pictures.labels_of = times, time_label, labels_of


# Scripts


def read_as_expression(text, names):
    if not isinstance(text, str):
        raise NoReading
    reader = Reader(text)
    reader.whole()
    if reader.has_length:
        raise NoReading
    names |= reader.names


class Live:
    """A specification whose rows and signals change."""

    def __init__(self, spec):
        self.spec, self.given, self.rows, self.ids = spec, {}, {}, 1
        for data in spec.get("data", []):
            if "source" not in data:
                self.rows[data["name"]] = self.numbered(rows_of_source(data))

    def numbered(self, rows):
        first, self.ids = self.ids, self.ids + len(rows)
        return [row | {"_vgsid_": F(first + i)} for i, row in enumerate(rows)]

    def picture(self):
        return picture_of(self.spec, lambda name, _: [dict(row) for row in self.rows[name]], self.given)

    def signals(self):
        return chart_pictures.signals_of(self.spec.get("signals", []), {}, self.given)

    def changed(self, source, change):
        entries = change.get("modify", [])
        names = set()
        if not change.keys() <= {"remove", "modify", "insert"} or not isinstance(change.get("insert", []), list) or not isinstance(entries, list):
            raise NoReading
        for e in entries:
            if not isinstance(e, dict) or e.keys() != {"where", "field", "set"} or not isinstance(e["field"], str):
                raise NoReading
            read_as_expression(e["where"], names)
            read_as_expression(e["set"], names)
        if "remove" in change:
            read_as_expression(change["remove"], names)
        if source not in self.rows or names - {s["name"] for s in self.spec.get("signals", [])}:
            return "refused name"
        for i, row in enumerate(change.get("insert", [])):
            if isinstance(row, list):
                return f'refused row {i} ""'
            for name, cell in row.items() if isinstance(row, dict) else [("data", row)]:
                if is_number(cell) and abs(near(cell)) > MOST:
                    return f'refused row {i} "{name}"'
        values, rows = self.signals(), []
        for row in self.rows[source]:
            if "remove" in change and truthy(value_of(change["remove"], row, values)):
                continue
            new = dict(row)
            for e in entries:
                if truthy(value_of(e["where"], row, values)):
                    new[e["field"]] = value_of(e["set"], row, values)
            rows.append(new)
        self.rows[source] = rows + self.numbered([row_of_json(row) for row in change.get("insert", [])])
        return "ok"

    def settled(self, name, value):
        is_pair = isinstance(value, list) and len(value) == 2 and all(map(is_number, value))
        is_cell = value is None or isinstance(value, (bool, str)) or is_number(value)
        if not (is_pair or is_cell) or any(is_number(n) and abs(near(n)) > MOST for n in listed(value)):
            raise NoReading
        if not any(s["name"] == name and "update" not in s for s in self.spec.get("signals", [])):
            return "refused name"
        self.given[name] = tuple(value) if isinstance(value, list) else value
        return "ok"

    def reply(self, line):
        before = dict(self.given), dict(self.rows), self.ids
        try:
            words = json.loads(line, parse_float=F, parse_int=F)
            if words == ["print"]:
                return self.picture()
            if not isinstance(words, list) or len(words) != 3 or not isinstance(words[1], str):
                raise NoReading
            if words[0] == "change" and isinstance(words[2], dict):
                answer = self.changed(*words[1:])
            elif words[0] == "set":
                answer = self.settled(*words[1:])
            else:
                raise NoReading
            if answer == "ok":
                self.picture()
        except (NoReading, json.JSONDecodeError):
            answer = "refused line"
        except Panels:
            answer = "refused limit"
        except Overflow:
            answer = "refused overflow"
        if answer != "ok":
            self.given, self.rows, self.ids = before
        return answer + "\n"


def replies_of(spec, script):
    live = Live(spec)
    return "".join(live.reply(line) for line in script.splitlines() if line and not line.startswith("#"))


def has_mouse(name):
    """Whether a script has a line of the mouse."""
    with open(f"examples/{name}.script", encoding="utf-8") as file:
        return any(line.startswith(('["click"', '["shift"', '["double"', '["drag"')) for line in file)


def shown():
    """The names that GALLERY.md shows, and those with a script without a line of the mouse."""
    with open("docs/GALLERY.md", encoding="utf-8") as file:
        text = file.read()
    pictures = list(dict.fromkeys(re.findall(r"\.\./examples/([\w-]+)\.svg", text)))
    scripts = [name for name in dict.fromkeys(re.findall(r"\.\./examples/([\w-]+)\.script", text)) if not has_mouse(name)]
    return [f"examples/{name}.json" for name in pictures] + [f"examples/{name}" for name in scripts]


def main(words):
    printed = words[:1] == ["-"]
    wrong = []
    for name in words[1 if printed else 0:] or shown():
        start = name.removesuffix(".json")
        with open(start + ".json", encoding="utf-8") as file:
            spec = json.load(file, parse_float=F, parse_int=F)
        if name != start:
            stored, answer = start + ".svg", picture_of(spec)
        else:
            with open(start + ".script", encoding="utf-8") as file:
                stored, answer = start + ".replies", replies_of(spec, file.read())
        if printed:
            print(answer, end="")
            continue
        try:
            with open(stored, encoding="utf-8") as file:
                same = file.read() == answer
        except FileNotFoundError:
            same = False
        if not same:
            wrong.append(stored)
    for stored in wrong:
        print(f"gallery_pictures: {stored} differs", file=sys.stderr)
    return 1 if wrong else 0


if __name__ == "__main__":
    sys.exit(main(sys.argv[1:]))
