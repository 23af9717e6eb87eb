#!/usr/bin/env python3
"""Measures the program beside its peers, in one run on one machine, and prints a table of ratios.

Usage: python3 bench/figures.py [--rounds N] [ROWS..]        (5 rounds over 1,000, 20,000 and 200,000 rows if none are given)

It times the start of a process to the picture of three rows; reading so many rows of CSV and of JSON; and drawing them as bars, points,
lines, grouped bars and facets. Each time is the median of the rounds, in each of which all programs take their turn; the memory is the
peak of one run more. The peers draw the same chart: plotutils' `graph` three rows; gnuplot the same places of the same CSV file; Vega in
node the same specification. Of each picture the items are counted. What isn't installed is named and left out.

It wants the proved program. Debian's packages of the peers are plotutils, gnuplot-nox, and node-vega with nodejs; memory is told by GNU
time in /usr/bin.
"""
import argparse
import json
import os
import re
import shutil
import statistics
import subprocess
import sys
import tempfile
import time

TOP = os.path.dirname(os.path.dirname(os.path.abspath(__file__)))
PROGRAM = os.path.join(TOP, "crates/chart_tool/out/chart_tool")
GNU_TIME = "/usr/bin/time"
SCHEMA = "https://vega.github.io/schema/vega/v5.json"
PACKAGES = "/usr/share/nodejs"
PARTS = ("vega-dataflow", "vega-transforms", "vega-view-transforms", "vega-encode", "vega-view", "vega-loader", "vega-parser")

# What Debian's `vg2svg` would do: it doesn't find the parts of Vega, so they are put together here.
VEGA = """
const {transforms} = require('vega-dataflow');
for (const name of ['vega-transforms', 'vega-view-transforms', 'vega-encode']) Object.assign(transforms, require(name));
const {View} = require('vega-view');
const spec = JSON.parse(require('fs').readFileSync(process.argv[2]));
const loader = require('vega-loader').loader({baseURL: process.cwd()});
new View(require('vega-parser').parse(spec), {renderer: 'none', loader}).toSVG().then(svg => process.stdout.write(svg));
"""

BLUE = "#4c78a8"
GROUPS = 50
MOST_VALUE = 1000

# Rounds for three rows, which take a thousandth of a second each; how long a run may take; and after how many seconds no round is begun
# but the third.
SHORT_ROUNDS = 101
MOST_SECONDS = 600
ENOUGH_SECONDS = 60

# The charts, each with the types of files from which it is drawn.
CHARTS = (
    ("reading alone", ("csv", "json")),
    ("bars", ("csv", "json")),
    ("points", ("csv",)),
    ("lines", ("csv",)),
    ("grouped bars", ("csv",)),
    ("facets", ("csv",)),
)


# The charts, as specifications of Vega and as scripts of gnuplot.


def linear(name, field, reach):
    return {"name": name, "type": "linear", "domain": {"data": "t", "field": field}, "zero": True, "nice": True, "range": reach}


def encode(**channels):
    return {"encode": {"update": channels}}


def on(scale, field):
    return {"scale": scale, "field": field}


def spec_of(chart, rows, text):
    """A Vega specification of a chart over so many rows of a type of file."""
    blue = {"value": BLUE}
    parse = {"parse": {"k": "number", "v": "number", "place": "number"}} if text == "csv" else {}
    top = {
        "$schema": SCHEMA,
        "width": 1000,
        "height": 400,
        "padding": 5,
        "data": [{"name": "t", "url": f"{rows}.{text}", "format": {"type": text, **parse}}],
    }
    if chart == "reading alone":
        return top
    bar = {"width": {"value": 1}, "y": on("y", "v"), "y2": {"scale": "y", "value": 0}, "fill": blue}
    point = {"x": on("x", "k"), "y": on("y", "v"), "size": {"value": 9}, "fill": blue}
    scales = [linear("x", "k", "width"), linear("y", "v", "height")]
    part = {"type": "group", "from": {"facet": {"name": "part", "data": "t", "groupby": ["group"]}}}
    if chart == "bars":
        marks = [{"type": "rect", "from": {"data": "t"}, **encode(x=on("x", "k"), **bar)}]
    elif chart == "points":
        marks = [{"type": "symbol", "from": {"data": "t"}, **encode(**point)}]
    elif chart == "lines":
        marks = [{"type": "line", "from": {"data": "t"}, **encode(x=on("x", "k"), y=on("y", "v"), stroke=blue)}]
    elif chart == "grouped bars":
        scales = [
            {"name": "across", "type": "band", "domain": {"data": "t", "field": "group"}, "range": "width"},
            {"name": "inner", "type": "linear", "domain": [0, rows / GROUPS], "range": [0, 18]},
            linear("y", "v", "height"),
        ]
        marks = [
            {
                **part,
                **encode(x=on("across", "group")),
                "marks": [{"type": "rect", "from": {"data": "part"}, **encode(x=on("inner", "place"), **bar)}],
            }
        ]
    else:
        # a grid of plots, with places that don't depend on whose width a scale of the top takes
        del top["width"], top["height"]
        top["layout"] = {"columns": 10, "padding": 20}
        scales = [linear("x", "k", [0, 100]), linear("y", "v", [60, 0])]
        marks = [
            {
                **part,
                **encode(width={"value": 100}, height={"value": 60}),
                "marks": [{"type": "symbol", "from": {"data": "part"}, **encode(**point)}],
            }
        ]
    return {**top, "scales": scales, "marks": marks}


def gnuplot_script(chart, rows):
    """A script of gnuplot that draws the same without axes, in one pass over the file; None where it has nothing to draw."""
    if chart == "reading alone":
        return None
    across = f"0:{rows}"
    down = f"0:{MOST_VALUE}"
    size = "1010,410"
    what = "1:2 with "
    if chart == "bars":
        what += "boxes"
        across = f"-1:{rows}"
    elif chart == "points":
        what += "points pt 7 ps 0.3"
    elif chart == "lines":
        what += "lines"
    elif chart == "grouped bars":
        what = f"(int($1)%{GROUPS}*20+$4*{18 * GROUPS / rows}):2 with boxes"
        across = "-1:1000"
    else:
        what = f"(int($1)%10*120+$1*{100 / rows}):((4-int($1)%{GROUPS}/10)*80+$2*{60 / MOST_VALUE}) with points pt 7 ps 0.3"
        across, down, size = "0:1180", "0:380", "1190,390"
    return (
        f"set terminal svg size {size}\nset datafile separator ','\nunset key\nunset border\nunset tics\n"
        f"set style fill solid noborder\nset boxwidth 1\nset xrange [{across}]\nset yrange [{down}]\n"
        f"plot '{rows}.csv' skip 1 using {what} lc rgb '{BLUE}'\n"
    )


def values(k):
    """The row of a number: its number, a value, the name of its group, and its place there."""
    return k, (k * 7919) % MOST_VALUE + 0.25, f"g{k % GROUPS}", k // GROUPS


def put_rows(rows):
    """Writes so many rows as a CSV file and as a JSON file."""
    with open(f"{rows}.csv", "w") as file:
        file.write("k,v,group,place\n")
        for k in range(rows):
            file.write("{},{},{},{}\n".format(*values(k)))
    with open(f"{rows}.json", "w") as file:
        for k in range(rows):
            row = '{{"k":{},"v":{},"group":"{}","place":{}}}'.format(*values(k))
            file.write(("," if k else "[") + row)
        file.write("]\n")


# Runs, and what is told of them.


def in_vega(name):
    return ["node", "vega.js", name]


def seconds_of(words, out):
    """How long a run takes from its start to its end, in seconds; None where it fails."""
    environment = {**os.environ, "NODE_PATH": PACKAGES}
    with open(out, "wb") as file:
        begin = time.perf_counter()
        try:
            run = subprocess.run(
                words, stdout=file, stderr=subprocess.DEVNULL, stdin=subprocess.DEVNULL, env=environment, timeout=MOST_SECONDS
            )
        except subprocess.TimeoutExpired:
            return None
        took = time.perf_counter() - begin
    return took if run.returncode == 0 and os.path.getsize(out) > 0 else None


def memory_of(words, out):
    """The peak memory of a run in mebibytes; None where it fails, or nothing tells it. (The usage that a parent is told of its child has the
    size of the parent in it, and GNU time is small.)"""
    if not os.access(GNU_TIME, os.X_OK):
        return None
    if seconds_of([GNU_TIME, "-f", "%M", "-o", "memory", *words], out) is None:
        return None
    with open("memory") as file:
        return int(file.read().split()[-1]) / 1024


def measured(programs, rounds):
    """The median seconds and the peak mebibytes of programs that are given as words by their names; those that fail are left out. All
    take their turn in each round."""
    memory = {name: memory_of(words, f"{name}.out") for name, words in programs.items()}
    times = {name: [] for name in programs}
    begin = time.perf_counter()
    for number in range(rounds):
        if number >= 3 and time.perf_counter() - begin > ENOUGH_SECONDS:
            break
        for name, words in programs.items():
            times[name].append(seconds_of(words, f"{name}.out"))
    return {name: (statistics.median(took), memory[name]) for name, took in times.items() if took and None not in took}


def items_in(chart, name):
    """How many items of a chart the picture of a program shows; of a line its points."""
    with open(f"{name}.out", "rb") as file:
        picture = file.read()
    if name == "gnuplot":
        # before the plot stand the forms of points
        picture = picture[picture.find(b"gnuplot_plot_1") :]
    if chart == "lines":
        return len(re.findall(rb"L[-0-9]", picture)) + 1
    pattern = {
        "ours": b"<rect |<circle ",
        "gnuplot": b"<polygon |<use ",
        "Vega": b'fill="' + BLUE.encode() + b'"',
    }[name]
    return len(re.findall(pattern, picture))


# What is printed.


def table(rows):
    """Prints rows of cells below their heads."""
    widths = [max(len(row[i]) for row in rows) for i in range(len(rows[0]))]
    for row in rows:
        cells = [cell.ljust(width) if i in (1, 2) else cell.rjust(width) for i, (cell, width) in enumerate(zip(row, widths))]
        print("  ".join(cells).rstrip())


def shown_time(seconds):
    if seconds is None:
        return "-"
    return f"{seconds * 1000:.1f} ms" if seconds < 1 else f"{seconds:.2f} s"


def shown_memory(mebibytes):
    return "-" if mebibytes is None else f"{mebibytes:.1f} MiB"


def of(ours, theirs):
    """A ratio; None where one of the two isn't known."""
    return None if ours is None or theirs is None else ours / theirs


def shown_ratio(ratio):
    return "-" if ratio is None else f"{ratio:.2f}"


def goal(what, ratios, most, strictly):
    """Prints whether the greatest of some ratios is at most so much, or below it."""
    known = [ratio for ratio in ratios if ratio is not None]
    said = f"below {most:.2f}" if strictly else f"at most {most:.2f}"
    if not known:
        print(f"  {what}: goal {said}, not measured")
        return
    greatest = max(known)
    is_met = greatest < most if strictly else greatest <= most
    print(f"  {what}: {greatest:.2f}, goal {said}: {'met' if is_met else 'NOT MET'}")


def installed():
    """The names of the programs that are there; the others are named."""
    there = {
        "ours": os.access(PROGRAM, os.X_OK),
        "graph": shutil.which("graph") is not None,
        "gnuplot": shutil.which("gnuplot") is not None,
        "Vega": shutil.which("node") is not None and all(os.path.isdir(f"{PACKAGES}/{part}") for part in PARTS),
    }
    told = {
        "ours": "the program isn't built (./chart --prove builds it)",
        "graph": "plotutils' graph isn't installed",
        "gnuplot": "gnuplot isn't installed",
        "Vega": "Vega in node isn't installed",
    }
    for name, is_there in there.items():
        if not is_there:
            print(f"{told[name]}, and is left out")
    if not os.access(GNU_TIME, os.X_OK):
        print("GNU time isn't installed, and memory is left out")
    return [name for name, is_there in there.items() if is_there]


def three_rows(there):
    """Prints how long the picture of three rows takes, and gives the ratio to graph's time."""
    with open("three.txt", "w") as file:
        file.write("0 28\n1 55\n2 43\n")
    with open("three.json", "w") as file:
        data = {"data": [{"name": "t", "values": [{"k": 0, "v": 28}, {"k": 1, "v": 55}, {"k": 2, "v": 43}]}]}
        json.dump({**spec_of("points", 3, "json"), **data}, file)
    programs = {
        "ours": [PROGRAM, "render", "three.json"],
        "graph": ["graph", "-T", "svg", "-g", "0", "-m", "0", "-S", "16", "0.02", "three.txt"],
    }
    found = measured({name: words for name, words in programs.items() if name in there}, SHORT_ROUNDS)
    ours = found.get("ours", (None, None))
    graph = found.get("graph", (None, None))
    ratio = of(ours[0], graph[0])
    shown = [f"{shown_time(each[0])}, {shown_memory(each[1])}" for each in (ours, graph)]
    print(f"Three rows: {shown[0]}; graph: {shown[1]}; ratio of the times {shown_ratio(ratio)}")
    return ratio


def chart_line(there, rounds, rows, chart, text, notes):
    """A line of the table, with the ratios to gnuplot's time, to Vega's time and to Vega's memory."""
    with open("spec.json", "w") as file:
        json.dump(spec_of(chart, rows, text), file)
    script = gnuplot_script(chart, rows) if text == "csv" else None
    with open("script.gp", "w") as file:
        file.write(script or "")
    programs = {"ours": [PROGRAM, "render", "spec.json"], "gnuplot": ["gnuplot", "script.gp"], "Vega": in_vega("spec.json")}
    taken = [name for name in programs if name in there and (name != "gnuplot" or script)]
    found = measured({name: programs[name] for name in taken}, rounds)
    for name in taken:
        what = "the program" if name == "ours" else name
        if name not in found:
            notes.append(f"{what} fails at {rows:,} rows as {chart} of {text}")
        elif chart != "reading alone" and items_in(chart, name) != rows:
            notes.append(f"{what} shows {items_in(chart, name):,} items of {rows:,} rows as {chart} of {text}")
    ours, gnuplot, vega = (found.get(name, (None, None)) for name in ("ours", "gnuplot", "Vega"))
    ratios = (of(ours[0], gnuplot[0]), of(ours[0], vega[0]), of(ours[1], vega[1]))
    times = [shown_time(each[0]) for each in (ours, gnuplot, vega)]
    memory = [shown_memory(each[1]) for each in (ours, gnuplot, vega)]
    shown = [shown_ratio(ratio) for ratio in ratios]
    return (f"{rows:,}", chart, text, times[0], memory[0], *shown, *times[1:], *memory[1:]), ratios


HEADS = (
    "rows", "chart", "file", "time", "memory", "of gnuplot's time", "of Vega's time", "of Vega's memory",
    "gnuplot's time", "Vega's time", "gnuplot's memory", "Vega's memory",
)  # fmt: skip


def all_figures(there, rounds, counts):
    ratio = three_rows(there)
    lines, notes, greatest = [HEADS], [], []
    for rows in counts:
        put_rows(rows)
        for chart, texts in CHARTS:
            for text in texts:
                line, ratios = chart_line(there, rounds, rows, chart, text, notes)
                lines.append(line)
                if rows == max(counts) and chart != "reading alone":
                    greatest.append(ratios)
    table(lines)
    for note in notes:
        print(note)
    print("Of the time and memory that peers take, the most:")
    goal("time of three rows, of graph's", [ratio], 1, False)
    goal(f"time of {max(counts):,} rows, of gnuplot's", [each[0] for each in greatest], 1, True)
    goal(f"memory of {max(counts):,} rows, of Vega's", [each[2] for each in greatest], 1 / 3, False)


def main():
    parser = argparse.ArgumentParser(description="Measures the program beside its peers.")
    parser.add_argument("--rounds", type=int, default=5)
    parser.add_argument("rows", type=int, nargs="*")
    given = parser.parse_args()
    load = os.getloadavg()[0]
    print(f"{os.cpu_count()} processors, of which {load:.1f} were taken by others at the start")
    there = installed()
    work = tempfile.mkdtemp()
    os.chdir(work)
    try:
        with open("vega.js", "w") as file:
            file.write(VEGA)
        all_figures(there, max(given.rounds, 1), given.rows or [1000, 20000, 200000])
    finally:
        os.chdir(TOP)
        shutil.rmtree(work)
    return 0 if "ours" in there else 1


if __name__ == "__main__":
    sys.exit(main())
