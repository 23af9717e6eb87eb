#!/usr/bin/env python3
"""How long Vega-Lite takes beside Vega: python3 bench/vl_charts.py [--rounds N] [--rows N] [PROGRAM]

Bars of so many rows of a CSV file (200,000 if nothing is said), each of its own and summed in fifty groups: the Vega-Lite specification, the Vega text
to which it is compiled, and the same chart as a person writes it in Vega. All three have to give the same bytes. Of each the processor time is told, the
median of the rounds, in each of which all take their turn, and the ratio to the chart that is written in Vega.

Then how long a dashboard of six views is compiled: what `compile` takes of it, less what it takes of the smallest chart, so that the start of the process
doesn't count; that is reading the text, judging it, compiling it and writing the Vega text. Data are a name alone, so that no rows are read.

It wants the proved program, or PROGRAM.
"""
import argparse
import json
import os
import random
import statistics
import sys
import tempfile

TOP = os.path.dirname(os.path.dirname(os.path.abspath(__file__)))
VEGA = "https://vega.github.io/schema/vega/v5.json"
LITE = "https://vega.github.io/schema/vega-lite/v5.json"
SIZE = {"width": 1000, "height": 400}


def place(scale, field):
    return {"scale": scale, "field": field}


def bars():
    """A bar for each row, by two numbers."""
    number = lambda field: {"field": field, "type": "quantitative", "axis": None}
    lite = {"$schema": LITE, **SIZE, "data": {"url": "rows.csv"}, "mark": "bar", "encoding": {"x": number("k"), "y": number("v")}}
    update = {"xc": place("x", "k"), "width": {"value": 5}, "y": place("y", "v"), "y2": {"scale": "y", "value": 0}, "fill": {"value": "#4c78a8"}}
    linear = lambda name, field, range_, zero: {"name": name, "type": "linear", "domain": {"data": "t", "field": field}, "range": range_, "zero": zero, "nice": True}
    vega = {"$schema": VEGA, **SIZE, "padding": 5, "data": [{"name": "t", "url": "rows.csv", "format": {"type": "csv"}}],
            "scales": [linear("x", "k", "width", False), linear("y", "v", "height", True)],
            "marks": [{"type": "rect", "from": {"data": "t"}, "encode": {"update": update}}]}
    return lite, vega


def sums():
    """A bar for each of fifty groups, as high as the sum of its rows."""
    lite = {"$schema": LITE, **SIZE, "data": {"url": "rows.csv"}, "mark": "bar",
            "encoding": {"x": {"field": "g", "type": "nominal", "axis": None},
                         "y": {"aggregate": "sum", "field": "v", "type": "quantitative", "axis": None}}}
    update = {"x": place("x", "g"), "width": {"scale": "x", "band": 1}, "y": place("y", "sum"), "y2": {"scale": "y", "value": 0}, "fill": {"value": "#4c78a8"}}
    group = {"type": "aggregate", "groupby": ["g"], "ops": ["sum"], "fields": ["v"], "as": ["sum"]}
    vega = {"$schema": VEGA, **SIZE, "padding": 5, "data": [{"name": "t", "url": "rows.csv", "format": {"type": "csv"}, "transform": [group]}],
            "scales": [{"name": "x", "type": "band", "domain": {"data": "t", "field": "g", "sort": True}, "range": "width", "paddingInner": 0.1,
                        "paddingOuter": 0.05},
                       {"name": "y", "type": "linear", "domain": {"data": "t", "field": "sum"}, "range": "height", "zero": True, "nice": True}],
            "marks": [{"type": "rect", "from": {"data": "t"}, "encode": {"update": update}}]}
    return lite, vega


def dashboard():
    """The dashboard of the gallery over rows that are still to come, with its six views."""
    with open(f"{TOP}/examples/vega-lite/dashboard.json", encoding="utf-8") as file:
        return json.load(file) | {"data": {"name": "t"}}


def write(name, it):
    with open(name, "w", encoding="utf-8") as file:
        json.dump(it, file)


def run(program, words, output):
    """The processor time of a run in seconds."""
    ran = os.posix_spawn(program, [program, *words], os.environ, file_actions=[
        (os.POSIX_SPAWN_OPEN, 0, os.devnull, os.O_RDONLY, 0), (os.POSIX_SPAWN_OPEN, 1, output, os.O_WRONLY | os.O_CREAT | os.O_TRUNC, 0o600)])
    _, status, used = os.wait4(ran, 0)
    if status != 0:
        sys.exit(f"vl_charts: {' '.join(words)} ended with {os.waitstatus_to_exitcode(status)}")
    return used.ru_utime + used.ru_stime


def read(name):
    with open(name, "rb") as file:
        return file.read()


def measured(program, rounds, name, lite, vega):
    write("lite.json", lite)
    write("vega.json", vega)
    run(program, ["compile", "lite.json"], "compiled.json")
    ways = ("vega", "lite", "compiled")
    times = {way: [] for way in ways}
    for _ in range(rounds):
        for way in ways:
            times[way].append(run(program, ["render", f"{way}.json"], f"{way}.svg"))
    if not read("vega.svg") == read("lite.svg") == read("compiled.svg"):
        sys.exit(f"vl_charts: {name}: the pictures differ")
    found = {way: statistics.median(of) for way, of in times.items()}
    print(f"{name}: Vega {found['vega']:.3f} s; Vega-Lite {found['lite']:.3f} s, {found['lite'] / found['vega']:.3f} of it; "
          f"its compiled text {found['compiled']:.3f} s, {found['compiled'] / found['vega']:.3f} of it", flush=True)


def compiled(program, rounds):
    write("six.json", dashboard())
    write("one.json", {"data": {"name": "t"}, "mark": "bar"})
    found = {}
    for name in ("one", "six"):
        found[name] = []
    for _ in range(rounds):
        for name in found:
            found[name].append(run(program, ["compile", f"{name}.json"], f"{name}.vega.json"))
    one, six = (statistics.median(found[name]) for name in ("one", "six"))
    print(f"compiling six views: {1000 * (six - one):.2f} ms, beside {1000 * one:.2f} ms for the smallest chart with the start of the process; "
          f"{os.path.getsize('six.json')} bytes to {os.path.getsize('six.vega.json')}")


def main(words):
    asked = argparse.ArgumentParser()
    asked.add_argument("--rounds", type=int, default=5)
    asked.add_argument("--rows", type=int, default=200_000)
    asked.add_argument("program", nargs="?", default=f"{TOP}/crates/chart_tool/out/chart_tool")
    asked = asked.parse_args(words)
    program = os.path.abspath(asked.program)
    if not os.access(program, os.X_OK):
        sys.exit(f"vl_charts: there is no program {program}: ./chart --prove builds it")
    with tempfile.TemporaryDirectory(prefix="vl_charts-") as room:
        os.chdir(room)
        draw = random.Random(7)
        with open("rows.csv", "w", encoding="utf-8") as file:
            file.write("k,g,v\n")
            file.writelines(f"{k},g{k % 50},{draw.randint(0, 1000)}\n" for k in range(asked.rows))
        measured(program, asked.rounds, f"bars of {asked.rows} rows", *bars())
        measured(program, asked.rounds, f"sums of {asked.rows} rows", *sums())
        compiled(program, 20 * asked.rounds)
        os.chdir(TOP)
    return 0


if __name__ == "__main__":
    sys.exit(main(sys.argv[1:]))
