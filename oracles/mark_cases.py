#!/usr/bin/env python3
"""Writes cases/vega/marks.cases and cases/vega/group-numbers.cases: the marks of oracles/mark_table.py with what is drawn of them.

Usage: oracles/mark_cases.py, at the top of the repository.
"""
import html
import json

from mark_table import F, LIMIT, Listed, MILLION, MOST, SCALES, decimal, lines

NAMES = {"rect": "rects", "symbol": "symbols", "line": "lines", "area": "areas", "rule": "rules", "text": "texts", "group": "groups"}
# how many marks stand in a case
MOST_MARKS = 50


class Number(str):
    """A number as it is spelled."""


def text_of(value):
    """A JSON text on one line."""
    if isinstance(value, Number):
        return str(value)
    if isinstance(value, dict):
        return "{" + ", ".join(json.dumps(name) + ": " + text_of(inner) for name, inner in value.items()) + "}"
    if isinstance(value, list):
        return "[" + ", ".join(map(text_of, value)) + "]"
    return json.dumps(value)


def value_of(words):
    members = dict(word.split(":", 1) for word in words.split(","))
    forms = {"if": ("test", str), "s": ("scale", str), "n": ("value", Number), "t": ("value", str), "null": ("value", lambda _: None), "f": ("field", str),
             "g": ("signal", str), "b": ("band", Number), "o": ("offset", Number), "F": ("format", str)}
    return {forms[key][0]: forms[key][1](members[key]) for key in forms if key in members}


def channel_of(words):
    values = [value_of(part) for part in words.split("|")]
    return values[0] if len(values) == 1 else values


def set_of(words):
    return {name: channel_of(part) for name, part in (word.split("=", 1) for word in words.split(" ") if word)}


def encode_of(enter, update):
    sets = {"enter": enter, "update": update} if update else {"update": enter}
    return {name: set_of(words) for name, words in sets.items() if words}


def mark_of(type_, enter, update, sort):
    mark = {"type": type_} | ({} if type_ == "group" else {"from": {"data": "t"}})
    if enter or update:
        mark["encode"] = encode_of(enter, update)
    if sort:
        words = sort.split(" ")
        mark["sort"] = {"field": [word.lstrip("-") for word in words], "order": ["descending" if word[0] == "-" else "ascending" for word in words]}
    return mark


def attributes(names, values):
    return "".join(f' {name}="{html.escape(value, quote=False)}"' for name, value in zip(names, values))


def element_of(item):
    """An item in words as SVG."""
    _, kind, rest = item.split(" ", 2)
    words = None
    if kind == "words":
        at, _, rest = rest.partition(" '")
        words, _, rest = rest.rpartition("' ")
        at, looks = at.split(" "), rest.split(" ")
    else:
        parts = rest.split(" ")
        at, looks = parts[:-4], parts[-4:]
    fill, stroke, width, opacity = looks
    if kind == "rect":
        out = "rect" + attributes(("x", "y", "width", "height"), at)
    elif kind == "circle":
        out = "circle" + attributes(("cx", "cy", "r"), at)
    elif kind == "line":
        out = "line" + attributes(("x1", "y1", "x2", "y2"), at)
    elif kind == "path":
        steps, rest = [], at[:-1]
        while rest:
            step = rest[:1] if rest[0] == "Z" else rest[:3]
            steps.append(step[0] + ",".join(step[1:]))
            rest = rest[len(step):]
        out = "path" + attributes(("d",), (" ".join(steps),))
    else:
        out = "text" + attributes(("x", "y", "text-anchor", "font-size"), (at[0], at[1], at[3], at[4]))
    if kind != "line":
        out += attributes(("fill",), ("none" if fill == "-" else fill,))
    if stroke != "-" and kind != "words":
        out += attributes(("stroke", "stroke-width"), (stroke, width))
    if opacity != "1":
        out += attributes(("opacity",), (opacity,))
    return "<" + out + ("/>" if words is None else ">" + html.escape(words, quote=False) + "</text>")


def each(shown):
    """The commands that put each line into the template, and show of its picture what `sed` is asked for."""
    return f"""--- each
while IFS= read -r typed; do
  while IFS= read -r line; do
    case $line in *@*) printf '%s\\n' "${{line%@*}}$typed${{line#*@}}" ;; *) printf '%s\\n' "$line" ;; esac
  done <template >s.json
  if chart render s.json >picture 2>notes; then
    sed {shown} picture
  else
    sed 's/^chart: //' notes
  fi
done
"""


BANDS = '{"name": "x", "type": "band", "domain": ["A", "B"], "range": [0, 40], "paddingInner": 0.1, "paddingOuter": 0.05}'
COUNTS = '"type": "ordinal", "domain": ["A", "B", "C"], "range": [16, 1, "left"]'
MARKS = '''--- template
{
  "$schema": "https://vega.github.io/schema/vega/v5.json", "width": 200, "height": 80,
  "data": [{"name": "t", "values": [
    {"a": "A", "word": "left", "amount": 28}, {"a": "B", "word": "top", "amount": 55}, {"a": "C", "word": "square", "amount": "none"}
  ]}],
  "scales": [
    BANDS,
    {"name": "y", "type": "linear", "domain": [0, 55], "range": [200, 0]},
    {"name": "color", "type": "ordinal", "domain": ["A"], "range": ["red"]},
    {"name": "form", "type": "ordinal", "domain": ["A", "B", "C"], "range": ["triangle-up", "diamond", "top"]},
    {"name": "count", COUNTS}
  ],
  "marks": [@]
}
'''
GROUP = '''--- template
{
  "$schema": "https://vega.github.io/schema/vega/v5.json", "width": 200, "height": 80,LAYOUT
  "data": [{"name": "t", "values": [{"a": "B", "amount": 28}]}, {"name": "one", "values": [0]}],
  "scales": [
    BANDS,
    {"name": "y", "type": "linear", "domain": [0, 55], "range": [200, 0]},
    {"name": "count", COUNTS}
  ],
  "marks": [{
    "type": "group", "from": {"facet": {"name": "part", "data": "t", "groupby": ["a", "amount"]}},
    INNER
  }]
}
'''
PLACED = '''"encode": @,
    "marks": [{"type": "rect", "from": {"data": "one"}, "encode": {"update": {"x": {"value": 0}}}}]'''
INSIDE = '''"scales": [{"name": "x", COUNTS}],
    "marks": [{
      "type": "group", "encode": @,
      "marks": [{"type": "rect", "from": {"data": "one"}, "encode": {"update": {"x": {"value": 0}}}}]
    }]'''
SIZED = '''"encode": @,
    "marks": []'''
CORNER = r"""-n 's/^<rect x="\([^"]*\)" y="\([^"]*\)".*/\1 \2/p'"""
WHOLE = r"""-n 's/^<svg.* width="\([^"]*\)" height="\([^"]*\)".*/\1 \2/p'"""


def template(text, layout="", inner=""):
    text = text.replace("LAYOUT", layout).replace("INNER", inner)
    return text.replace("BANDS", BANDS).replace("COUNTS", COUNTS)


def case(name, rows, before=""):
    """A case of lines with what comes of them."""
    typed = "".join(f"> {line}\n" + "".join(f"{out}\n" for out in outs) for line, outs in rows)
    return f"\n=== {name}\n{before}--- $ . ./each\n{typed}"


def marks():
    yield "Marks over three rows with what is drawn of each, in a plot of 200 by 80; oracles/mark_cases.py writes them.\n"
    yield each("'/svg/d; /^<g /d; /^<.g>/d'") + template(MARKS)
    found = {}
    for line in lines():
        answer, type_, enter, update, sort = line.split("\t")
        if type_ in NAMES:
            drawn = [answer] if answer == "overflow" else [element_of(item) for item in answer.split("; ") if item]
            found.setdefault(NAMES[type_], {})[text_of(mark_of(type_, enter, update, sort))] = drawn
    for name, rows in found.items():
        rows = list(rows.items())
        for at in range(0, len(rows), MOST_MARKS):
            yield case(name + (f" from {at + 1} on" if at else ""), rows[at:at + MOST_MARKS])


def group_numbers():
    yield "Numbers that a group encodes, over a facet of B with 28; oracles/mark_cases.py writes them. A line is what the group encodes.\n"
    placed, inside, sized = [], [], []
    for line in lines():
        answer, type_, enter, update, _ = line.split("\t")
        kind, _, channel = type_.partition("-")
        if not channel:
            continue
        typed = text_of(encode_of(enter, update))
        if "s:other" in enter:
            inside.append((typed, [f"spec wrong /marks/0/marks/0/encode/update/{channel}/scale"]))
        elif answer == "overflow":
            (sized if channel in ("width", "height") else placed).append((typed, [answer]))
        elif channel in ("width", "height"):
            size = decimal(int(F(answer) * MILLION) + 10 * MILLION)
            sized.append((typed, [f"{size} 10" if channel == "width" else f"10 {size}"]))
        else:
            (inside if kind == "inner" else placed).append((typed, [f"{answer} 0" if channel == "x" else f"0 {answer}"]))
    yield case("where a group stands in a plot", placed, each(CORNER) + template(GROUP, inner=PLACED))
    yield case("where a group stands in an object with a scale x of its own", inside, each(CORNER) + template(GROUP, inner=INSIDE))
    yield case("how large a group's plot is in a layout, with 5 pixels on each side", sized, each(WHOLE) + template(GROUP, ' "layout": {},', SIZED))


def main():
    assert LIMIT == MOST * MILLION
    SCALES["count"] = Listed({"A": F(16), "B": F(1), "C": "left"})
    for name, parts in (("marks", marks()), ("group-numbers", group_numbers())):
        with open(f"cases/vega/{name}.cases", "w", encoding="utf-8") as file:
            file.writelines(parts)


if __name__ == "__main__":
    main()
