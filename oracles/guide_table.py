#!/usr/bin/env python3
"""Writes the table of crates/guide_table: axes, legends and titles with their answers, computed apart.

oracles/guide_table.py FOLDER writes FOLDER/stdin and FOLDER/stdout. Each line is the answer, a tab, and the question in words between tabs.
Places, sizes and labels are computed with fractions, by a table of the four sides; columns of texts by Unicode's width classes. The
ticks and labels of instants are written here.
"""
import math
import unicodedata
from fractions import Fraction as F

MOST = 10 ** 15
SIZE = 10 ** 11
# the range of instants, in milliseconds
FIRST = -62135596800000
LAST = 253370764799999


def near(x):
    """A fraction rounded to millionths, the middle going upward."""
    return F(math.floor(F(x) * 10 ** 6 + F(1, 2)), 10 ** 6)


def cut(x):
    return max(-MOST, min(MOST, F(x)))


def said(x):
    x = F(x)
    m = int(x * 10 ** 6)
    assert F(m, 10 ** 6) == x, x
    sign, m = ("-" if m < 0 else ""), abs(m)
    whole, rest = divmod(m, 10 ** 6)
    return sign + str(whole) + (("." + f"{rest:06d}".rstrip("0")) if rest else "")


def columns(text):
    """Columns of characters that join no others."""
    n = 0
    for c in text:
        if unicodedata.combining(c) or unicodedata.category(c) in ("Mn", "Me", "Cf"):
            continue
        n += 2 if unicodedata.east_asian_width(c) in ("W", "F") else 1
    return n


def width(text, column):
    return min(columns(text) * column, SIZE)


def step(lo, hi, count):
    """1, 2 or 5 times a power of ten; None where it is out of range."""
    e = F(hi - lo) / count
    for k in range(-6, 17):
        p = F(10) ** k
        for c, bound in ((1, "1.414214"), (2, "3.162278"), (5, "7.071068")):
            if e < F(bound) * p:
                return c * p if c * p <= MOST else None
    return None


def decimals_of(x):
    text = said(abs(x))
    return len(text.split(".")[1]) if "." in text else 0


def decimals_on(lo, hi, count):
    if lo == hi:
        return decimals_of(lo)
    s = step(lo, hi, count)
    return 0 if s is None else decimals_of(s)


def number(x, decimals, comma=True):
    units = math.floor(F(x) * 10 ** decimals + F(1, 2))
    sign, units = ("\u2212" if units < 0 else ""), abs(units)
    whole, rest = divmod(units, 10 ** decimals)
    return sign + (f"{whole:,}" if comma else str(whole)) + ("." + str(rest).zfill(decimals) if decimals else "")


def display(cell):
    if cell is None:
        return "null"
    if cell is True or cell is False:
        return "true" if cell else "false"
    if isinstance(cell, tuple):
        return f"[{said(cell[0])},{said(cell[1])}]"
    return cell if isinstance(cell, str) else said(cell)


def word(cell):
    if cell is None:
        return "null"
    if cell is True or cell is False:
        return "true" if cell else "false"
    if isinstance(cell, tuple):
        return f"p:{said(cell[0])}:{said(cell[1])}"
    return "t:" + cell if isinstance(cell, str) else "n:" + said(cell)


def is_number(cell):
    return cell is not None and not isinstance(cell, (bool, str, tuple))


def by_number_format(form, own, x):
    comma = form.startswith(",")
    rest = form[1:] if comma else form
    named = None
    if rest.startswith("."):
        named, rest = int(rest[1]), rest[2:]
    if rest == "d":
        return number(x, 0, comma)
    if rest == "f":
        return number(x, named if named is not None else (own if own is not None else 6), comma)
    return number(F(x) * 100, named if named is not None else (max(own - 2, 0) if own is not None else 6), comma) + "%"


def is_number_format(form):
    rest = form[1:] if form.startswith(",") else form
    if len(rest) == 3 and rest[0] == "." and rest[1] in "0123456":
        rest = rest[2:]
    return rest in ("f", "d", "%")


class Scale:
    """A scale: its kind, numbers, domain and range."""

    def __init__(self, kind, numbers=(), domain=(), range_=()):
        self.kind, self.n, self.domain, self.range = kind, [F(x) for x in numbers], list(domain), list(range_)

    def words(self):
        return [self.kind, ",".join(said(x) for x in self.n), ",".join(word(c) for c in self.domain), ",".join(word(c) for c in self.range)]

    def is_continuous(self):
        return self.kind in ("linear", "time", "ramp", "timeramp")

    def band(self, v):
        """The centre of a band, and the place of a point."""
        inner, outer, r0, r1 = self.n
        if self.kind == "point":
            inner = F(1)
        if v not in self.domain:
            return None
        k, n = self.domain.index(v), len(self.domain)
        space = n - inner + 2 * outer
        if space <= 0:
            return r0 + near((r1 - r0) / 2)
        return r0 + near((r1 - r0) * (outer + k + (1 - inner) / 2) / space)

    def place(self, v):
        """The place of a cell, on a band at its centre."""
        if self.kind in ("linear", "time"):
            if not is_number(v) or (self.kind == "time" and not FIRST <= v <= LAST):
                return None
            d0, d1, r0, r1 = self.n
            return r0 + near((r1 - r0) / 2) if d0 == d1 else r0 + near((v - d0) * (r1 - r0) / (d1 - d0))
        if self.kind in ("band", "point"):
            return self.band(v)
        if self.kind == "ordinal" and v in self.domain:
            entry = self.range[self.domain.index(v) % len(self.range)]
            return entry if is_number(entry) else None
        return None

    def paint(self, v):
        if self.kind == "ordinal" and v in self.domain:
            entry = self.range[self.domain.index(v) % len(self.range)]
            return entry if isinstance(entry, str) else None
        if self.kind in ("ramp", "timeramp") and is_number(v):
            d0, d1 = self.n[0], self.n[1]
            v = max(d0, min(d1, v))
            at = F(1, 2) if d0 == d1 else F(v - d0) / (d1 - d0)
            ends = zip((222, 235, 247), (8, 81, 156))
            return "#" + "".join(f"{a + math.floor((b - a) * at + F(1, 2)):02x}" for a, b in ends)
        return None

    def ticks(self, count, times):
        """The cells that it shows; None where the step is out of range. Those of a time scale are given."""
        if self.kind in ("time", "timeramp"):
            return times
        if self.kind in ("linear", "ramp"):
            lo, hi = self.n[0], self.n[1]
            if lo == hi:
                return [lo]
            s = step(lo, hi, count)
            if s is None:
                return None
            return [s * k for k in range(math.ceil(lo / s), math.floor(hi / s) + 1)]
        return self.domain

    def label(self, count, form, v, labels):
        """The label of a cell; those of instants are given."""
        own = decimals_on(self.n[0], self.n[1], count) if self.is_continuous() else None
        if form is not None and is_number_format(form):
            return by_number_format(form, own, v) if is_number(v) else display(v)
        if is_number(v) and v in labels:
            return labels[v]
        if form is None and self.kind in ("linear", "ramp") and is_number(v):
            return number(v, own)
        return display(v)


def shape_item(shape, fill, stroke, opacity=1):
    return "{" + shape + f" {fill or 'none'} {stroke or 'none'} 1 {said(opacity)}" + "}"


def line(x1, y1, x2, y2, color):
    return shape_item(f"line {said(x1)} {said(y1)} {said(x2)} {said(y2)}", None, color)


def text(x, y, turned, anchor, size, bold, words):
    style = f"{'turned' if turned else 'upright'} {anchor} {size} {'bold' if bold else 'plain'}"
    return shape_item(f"text {said(x)} {said(y)} {style} {words}", "#000", None)


def axis(s, side, parts="ltd", title=None, count=None, values=None, form=None, w=40, h=80, offset=0, times=(), labels=None):
    """A line of the table for an axis. `parts` has l for labels, t ticks, d its line, g a grid, r turned."""
    w, h, o, labels = F(w), F(h), F(offset), labels or {}
    words = s.words() + [side, parts, "=" + title if title is not None else "", str(count or ""),
                         "=" + ",".join(word(v) for v in values) if values is not None else "", "=" + form if form is not None else "",
                         said(w), said(h), said(o)]
    return axis_answer(s, side, parts, title, count, values, form, w, h, o, times, labels) + "\taxis\t" + "\t".join(words)


def axis_answer(s, side, parts, title, count, values, form, w, h, o, times, labels):
    flat = side in ("bottom", "top")
    size = w if flat else h
    n = count or max(1, min(1000, math.ceil(size / 40)))
    cells = values if values is not None else s.ticks(n, times)
    if cells is None:
        return "overflow"
    marks = []
    for v in cells:
        at = s.place(v)
        if at is not None:
            if abs(at) > MOST:
                return "overflow"
            marks.append((at, s.label(n, form, v, labels)))
    turned = "r" in parts and flat
    widest = max([width(label, 6) for _, label in marks], default=0)
    extent = 0
    if "t" in parts:
        extent += 5
    if "l" in parts:
        extent += 2 + (widest if not flat or turned else 10)
    if title is not None:
        extent += 4 + 11
    extent = min(extent, SIZE)
    back = 0 if "t" in parts else 5
    grid, items = [], []
    for t, _ in marks:
        if "g" in parts:
            grid.append(line(t, 0, t, h, "#ddd") if flat else line(0, t, w, t, "#ddd"))
    if "d" in parts:
        items.append({"bottom": line(0, h + o, w, h + o, "#888"), "top": line(0, -o, w, -o, "#888"),
                      "left": line(-o, 0, -o, h, "#888"), "right": line(w + o, 0, w + o, h, "#888")}[side])
    for t, _ in marks:
        if "t" in parts:
            items.append({"bottom": line(t, h + o, t, h + o + 5, "#888"), "top": line(t, -5 - o, t, -o, "#888"),
                          "left": line(-5 - o, t, -o, t, "#888"), "right": line(w + o, t, w + o + 5, t, "#888")}[side])
    for t, label in marks:
        if "l" in parts:
            down = cut(t + 3)
            if turned:
                at = (down, h + o + 7 - back, "end") if side == "bottom" else (down, -7 + back - o, "start")
            else:
                at = {"bottom": (t, h + o + 17 - back, "middle"), "top": (t, -7 + back - o, "middle"),
                      "left": (-7 + back - o, down, "end"), "right": (w + o + 7 - back, down, "start")}[side]
            items.append(text(at[0], at[1], turned, at[2], 10, False, label))
    if title is not None:
        at = {"bottom": (near(w / 2), h + o + extent), "top": (near(w / 2), -(extent - 11) - o),
              "left": (-(extent - 11) - o, near(h / 2)), "right": (w + o + extent, near(h / 2))}[side]
        items.append(text(at[0], at[1], not flat, "middle", 11, True, title))
    return f"{said(extent)} grid {''.join(grid)} items {''.join(items)}"


def root(x):
    return F(math.isqrt(int(F(x) * 10 ** 12)), 10 ** 6)


def sign(s, channel, color, x, y, v):
    """The sign of a cell about a place; None where it has none."""
    r = near(root(30) / 2)
    if channel == "color":
        own = s.paint(v)
        return None if own is None else shape_item(f"rect {said(cut(x - 5))} {said(cut(y - 5))} 10 10", own, None)
    if channel == "opacity":
        at = s.plain_place(v)
        return None if at is None else shape_item(f"circle {said(x)} {said(y)} {said(r)}", color, None, at)
    if channel == "size":
        at = s.plain_place(v)
        return None if at is None or at < 0 else shape_item(f"circle {said(x)} {said(y)} {said(near(root(at) / 2))}", color, None)
    kind = s.paint(v)
    if kind == "square":
        shape = f"rect {said(x - r)} {said(cut(y - r))} {said(root(30))} {said(root(30))}"
    elif kind == "diamond":
        shape = f"path M {said(x - r)} {said(y)} L {said(x)} {said(y - r)} L {said(x + r)} {said(y)} L {said(x)} {said(y + r)} Z {said(r)}"
    elif kind == "triangle-up":
        d = near(r * F("0.866025"))
        shape = f"path M {said(x)} {said(y - d)} L {said(x - r)} {said(y + d)} L {said(x + r)} {said(y + d)} Z {said(r)}"
    else:
        shape = f"circle {said(x)} {said(y)} {said(r)}"
    return shape_item(shape, color, None)


def plain_place(self, v):
    """The place of a cell, on a band at its lesser end."""
    if self.kind == "band":
        inner, outer, r0, r1 = self.n
        if v not in self.domain:
            return None
        k, n = self.domain.index(v), len(self.domain)
        space = n - inner + 2 * outer
        if space <= 0:
            return r0 + near((r1 - r0) / 2)
        return r0 + near((r1 - r0) * (outer + k + (1 - inner if r1 < r0 else 0)) / space)
    return self.place(v)


Scale.plain_place = plain_place


def legend(s, channel, title=None, form=None, color="#4c78a8", times=(), labels=None):
    """A line of the table for a legend."""
    words = s.words() + [channel, "=" + title if title is not None else "", "=" + form if form is not None else "", color]
    return legend_answer(s, channel, title, form, color, times, labels or {}) + "\tlegend\t" + "\t".join(words)


def legend_answer(s, channel, title, form, color, times, labels):
    cells = s.ticks(5, times)
    if cells is None:
        return "overflow"
    row, x, at = (22, 11, 26) if channel == "size" else (14, 6, 16)
    top = 15 if title is not None else 0
    items = [text(0, 11, False, "start", 11, True, title)] if title is not None else []
    signs, words, widest = [], [], None
    for v in cells:
        y = top + len(words) * row + F(row, 2)
        one = sign(s, channel, color, F(x), y, v)
        signs += [] if one is None else [one]
        label = s.label(5, form, v, labels)
        words.append(text(at, y + 3, False, "start", 10, False, label))
        widest = max(widest or 0, width(label, 6))
    across = max(width(title, 7) if title is not None else 0, 0 if widest is None else at + widest)
    return f"{said(min(across, SIZE))} {said(min(top + row * len(words), SIZE))} items {''.join(items + signs + words)}"


def view_title(words, w, above):
    question = "\t".join(["title", words, said(F(w)), said(F(above))])
    return text(near(F(w) / 2), -(F(above) + 10), False, "middle", 13, True, words) + "\t" + question


def rows():
    """The lines of the table."""
    up_to_four = Scale("linear", (0, 4, 80, 0))
    up_to_twelve = Scale("linear", (0, 12, 300, 0))
    bars = Scale("band", ("0.1", "0.05", 0, 40), ("A", "B"))
    # the y axis of the worked picture of two bars, and both axes of the one with names
    yield axis(up_to_four, "left", "ltdg", "b")
    yield axis(up_to_twelve, "left", "ltdg", "b", h=300)
    yield axis(bars, "bottom", "ltdr", "a", h=300)
    # each side with each part missing, and with an offset
    for side in ("bottom", "top", "left", "right"):
        for missing in ("", "l", "t", "d", "g", "r", "ltd", "ltdgr"):
            parts = "".join(p for p in "ltdgr" if p not in missing)
            for title in ("title", "", None):
                yield axis(bars, side, parts, title, w=41, h=40, offset=28)
        yield axis(up_to_four, side, "ltdg", "b", w=101, h=81, offset="0.5")
    # labels of columns of width 0, 1 and 2, and marks on the character before
    wide = Scale("point", (1, "0.5", 0, 90), ("", "\u0301", "e\u0301", "\u65e5", "\u65e5\u672c x", "a\u200b\u0308b", "n\u0303o"))
    for side in ("bottom", "top", "left", "right"):
        yield axis(wide, side, "ltdr", "\u65e5e\u0301")
    # counts of ticks
    for n in (1, 2, 5, 9, 100):
        yield axis(Scale("linear", ("-0.3", "1.7", 0, 100)), "bottom", "ltd", None, n)
    for w in (0, 1, 40, "40.000001", 80, 299, 300, 39960, 40000, 10 ** 11):
        yield axis(Scale("linear", (0, 1, 0, w)), "top", "l", None, None, w=w) if F(w) < 39000 else axis(
            Scale("linear", (0, 3, 0, w)), "top", "", None, None, w=w)
    # one point, and steps out of range
    yield axis(Scale("linear", ("1.25", "1.25", 0, 100)), "bottom", "ltd")
    yield axis(Scale("time", ("0.5", "0.5", 0, 100)), "bottom", "ltd", form=".2f", times=[F("0.5")])
    far = Scale("linear", (-MOST, MOST, 0, 100))
    yield axis(far, "bottom", "ltd", None, 1)
    yield axis(far, "bottom", "ltd", None, 1, values=[F(0), F("0.5"), F(MOST)])
    yield axis(far, "bottom", "ltd", None, 2)
    # given cells: repeated, outside, without a place, out of range, of the wrong kind, none
    line_ = Scale("linear", (0, 10, 0, 100))
    yield axis(line_, "bottom", "ltdg", "v", values=[F(5), F(5), F(-3), F(20), F("2.5")])
    yield axis(line_, "left", "ltdg", "v", values=["a", None, True, (F(1), F(2)), F(7)])
    yield axis(line_, "right", "ltdg", "v", values=[])
    yield axis(bars, "top", "ltdg", "v", values=["B", "C", "B", None, F(1)])
    narrow = Scale("linear", (0, "0.000001", 0, 10))
    yield axis(narrow, "bottom", "ltd", values=[F(0), F(MOST)])
    yield axis(narrow, "bottom", "", values=[F("100")])
    yield axis(Scale("linear", (0, 1, 0, 1)), "left", "lt", values=[F(MOST), F(MOST - 1), F(-MOST)])
    yield axis(Scale("linear", (0, 1, 0, 1)), "bottom", "ltr", values=[F(MOST), F(MOST - 2)])
    # formats on each kind of scale
    mixed = Scale("point", (1, "0.5", 0, 90), (F("1234.5"), F("-0.5"), "1", None, True, (F(1), F("2.5"))))
    kinds = [(up_to_four, ()), (Scale("linear", (0, "0.9", 0, 100)), ()), (Scale("linear", (-5000, 5000, 0, 100)), ()), (mixed, ())]
    for form in ("f", ".2f", ",f", ",.1f", "d", ",d", ".3d", "%", ".0%", ",.1%", ".6%"):
        for s, times in kinds:
            yield axis(s, "bottom", "ltd", form=form, w=100)
        yield axis(Scale("ordinal", (), (F("0.5"), "x", F(2)), (F(1), F(50), "red")), "left", "lt", form=form)
    year = {F(0): "1970", F(86400000): "1970"}
    yield axis(Scale("linear", (0, 86400000, 0, 100)), "bottom", "lt", form="%Y", values=[F(0), F(86400000)], labels=year)
    years = year | {F(10 ** 14): "5138", F(LAST): "9998", F(FIRST): "0001"}
    ends = (F(0), "a", F(10 ** 14), F(LAST), F(LAST + 1), F(FIRST), F(FIRST - 1), F(LAST) + F("0.000001"))
    yield axis(Scale("point", (1, 0, 0, 70), ends), "bottom", "lt", form="%Y", labels=years)
    # instants
    months = [1706745600000, 1709251200000, 1711929600000, 1714521600000]
    names = dict(zip(map(F, months), ("February", "March", "April", "May")))
    february = Scale("time", (months[0], months[3], 0, 200))
    yield axis(february, "bottom", "ltdg", "month", 5, times=list(map(F, months)), labels=names, w=200)
    yield axis(february, "left", "lt", None, 5, form="%m/%d", times=list(map(F, months)),
               labels=dict(zip(map(F, months), ("02/01", "03/01", "04/01", "05/01"))), h=200)
    yield axis(february, "bottom", "lt", None, 5, form=",d", times=list(map(F, months)), w=200)
    yield axis(february, "bottom", "lt", None, 5, form="f", values=[F(months[1]), F(months[3]) + F("0.25"), "a", F(10 ** 15)], w=200)
    seconds = Scale("time", (0, 1000, 0, 100))
    fifths = dict(zip(map(F, (0, 200, 400, 600, 800, 1000)), ("1970", ".200", ".400", ".600", ".800", ":01")))
    yield axis(seconds, "top", "lt", None, 5, times=list(fifths), labels=fifths)
    # scales without places
    yield axis(Scale("ramp", (0, 10)), "bottom", "ltdg", "r")
    yield axis(Scale("ramp", (-MOST, MOST)), "bottom", "ltdg", "r", 1)
    yield axis(Scale("timeramp", (0, 1000)), "right", "ltdg", "r", 5, times=list(fifths), labels=fifths)
    yield axis(Scale("band", (0, 0, 0, 40)), "left", "ltdg", "r")
    yield axis(Scale("ordinal", (), ("a", "b"), ("red", F(7))), "bottom", "ltdg", "r")
    # falling ranges, all padding
    yield axis(Scale("band", ("0.1", "0.05", 40, 0), ("A", "B")), "left", "lt", h=40)
    yield axis(Scale("band", (1, 0, 20, 60), ("A",)), "left", "lt", h=80)
    # legends: the worked one, without a title, with an empty title, with a wide one
    two = Scale("ordinal", (), ("u", "v"), ("#4c78a8", "#f58518"))
    for title in ("c", None, "", "a title that is wide", "\u65e5\u672c"):
        yield legend(two, "color", title)
    # without entries
    for channel in ("color", "opacity", "size", "shape"):
        for title in ("none", None):
            yield legend(Scale("ordinal"), channel, title)
            yield legend(Scale("point", (1, 0, 0, 1)), channel, title)
    # colours that are lacking, that begin again; ramps
    yield legend(Scale("ordinal", (), ("a", F(1), None), ("red", F(3))), "color", "c")
    yield legend(Scale("ordinal", (), (F(1), F("2.5"), "x"), ("red", "green")), "color", "c", ".1f")
    yield legend(Scale("ramp", (0, 10)), "color", "r")
    yield legend(Scale("ramp", (0, "0.9")), "color", None, "%")
    yield legend(Scale("ramp", (5, 5)), "color")
    yield legend(Scale("ramp", (-MOST, MOST)), "color", "wide")
    yield legend(Scale("timeramp", (0, 1000)), "color", "t", times=list(fifths), labels=fifths)
    yield legend(Scale("linear", (0, 10, 0, 1)), "color", "none")
    # opacities
    yield legend(Scale("point", (1, 0, "0.3", "0.8"), ("a", "b", "c")), "opacity", "o", color="#000")
    yield legend(Scale("linear", (0, 10, "0.3", "0.8")), "opacity", "o")
    yield legend(Scale("ordinal", (), ("a", "b"), (F("0.25"), "red")), "opacity", "o")
    yield legend(Scale("band", ("0.5", 0, 1, 0), ("a", "b")), "opacity", "o")
    yield legend(Scale("band", ("0.5", 0, 0, 1), ("a", "b")), "opacity", "o")
    # shapes
    yield legend(Scale("ordinal", (), ("a", "b", "c", "d", "e"), ("circle", "square", "triangle-up", "diamond")), "shape", "s")
    yield legend(Scale("ordinal", (), ("a", "b", "c"), ("cross", F(1), "diamond")), "shape", None, color="red")
    # sizes
    yield legend(Scale("linear", (0, 100, 0, 361)), "size", "size")
    yield legend(Scale("ordinal", (), ("a", "b", "c", "d"), (F(-1), F("0.000001"), F(30), F(MOST))), "size", "size")
    yield legend(Scale("linear", (0, 1, 0, 10 ** 11)), "size")
    # titles
    yield view_title("a title", 41, 28)
    yield view_title("", 0, 0)
    yield view_title("\u65e5", MOST, SIZE)
    yield view_title("x", "0.000001", "0.5")


if __name__ == "__main__":
    import sys
    lines = list(rows())
    with open(sys.argv[1] + "/stdin", "w") as out:
        out.write("".join(line + "\n" for line in lines))
    with open(sys.argv[1] + "/stdout", "w") as out:
        out.write(f"{len(lines)} lines\n")
