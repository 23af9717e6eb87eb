#!/bin/sh
# Times groups, joins, stacks and windows of COUNT rows (200,000 if none is given) of a CSV file: what the program takes to read the rows and to
# transform them, beside sqlite3 and plain python3 doing the same from the same file. No mark draws the rows. It wants the proved program and
# python3 on the path; sqlite3 where it is there.
set -e
count=${1:-200000}
top=$(cd "$(dirname "$0")/.." && pwd)
program=$top/crates/chart_tool/out/chart_tool
[ -x "$program" ] || { echo "bench/transforms.sh: ./chart --prove makes the program" >&2; exit 1; }
python3 - "$count" "$program" <<'PYTHON'
import csv
import json
import os
import shutil
import subprocess
import sys
import tempfile
import time

count, program = int(sys.argv[1]), sys.argv[2]
folder = tempfile.mkdtemp()
os.chdir(folder)
with open("rows.csv", "w") as file:
    file.write("k,one,v\n")
    file.writelines(f"{i * 7919 % count},1,{i * 104729 % 1000 + 0.25}\n" for i in range(count))


def spec(*transforms):
    """A specification that reads the rows, transforms them and draws none of them."""
    data = [
        {"name": "t", "url": "rows.csv", "format": {"type": "csv"}},
        {"name": "u", "source": "t", "transform": list(transforms)},
        {"name": "none"},
    ]
    mark = {"type": "rect", "from": {"data": "none"}, "encode": {"update": {"x": {"value": 0}}}}
    return {"$schema": "https://vega.github.io/schema/vega/v5.json", "width": 10, "height": 10, "data": data, "marks": [mark]}


def window(op, frame):
    order = {"field": ["one", "k"], "order": ["ascending", "ascending"]}
    return {"type": "window", "ops": [op], "fields": ["v"], "frame": frame, "sort": order, "ignorePeers": True}


def group(by, kind="aggregate"):
    return {"type": kind, "groupby": [by], "ops": ["sum", "mean", "max"], "fields": ["v", "v", "v"]}


def rows():
    with open("rows.csv", newline="") as file:
        reader = csv.reader(file)
        next(reader)
        return [(int(k), int(one), float(v)) for k, one, v in reader]


def grouped(place):
    groups = {}
    for row in rows():
        groups.setdefault(row[place], []).append(row[2])
    return [(key, sum(vs), sum(vs) / len(vs), max(vs)) for key, vs in groups.items()]


def running(before, after):
    """The sums of frames, by sums of fronts."""
    ordered = sorted(rows())
    sums = [0.0]
    for row in ordered:
        sums.append(sums[-1] + row[2])
    n = len(ordered)
    first = [0 if before is None else max(0, i + before) for i in range(n)]
    last = [n if after is None else min(n, i + 1 + after) for i in range(n)]
    return [sums[last[i]] - sums[first[i]] for i in range(n)]


def frame_sql(op, frame):
    begin = "unbounded preceding" if frame[0] is None else f"{-frame[0]} preceding"
    end = "unbounded following" if frame[1] is None else "current row"
    return f"select {op}(v) over (partition by one order by k rows between {begin} and {end}) from t"


FRAMES = [[None, None], [-1000, 0], [None, 0]]
CASES = [
    ("reading alone", [], "select max(k) from t", rows),
    ("as many groups as rows", [group("k")], "select k, sum(v), avg(v), max(v) from t group by k", lambda: grouped(0)),
    ("one group", [group("one")], "select one, sum(v), avg(v), max(v) from t group by one", lambda: grouped(1)),
    ("a stack", [{"type": "stack", "field": "v", "groupby": ["one"], "sort": {"field": "k"}}], frame_sql("sum", [None, 0]), lambda: running(None, 0)),
]
for op in ("sum", "mean", "max"):
    for frame in FRAMES:
        python = (lambda f=frame: running(*f)) if op == "sum" else None
        CASES.append((f"{op} over {json.dumps(frame)}", [window(op, frame)], frame_sql({"mean": "avg"}.get(op, op), frame), python))


def best(work):
    took = None
    for _ in range(3):
        start = time.time()
        work()
        now = time.time() - start
        took = now if took is None else min(took, now)
    return took


def sqlite(query):
    script = f".mode csv\ncreate table t(k integer, one integer, v real);\n.import --skip 1 rows.csv t\n.output /dev/null\n{query};\n"
    subprocess.run(["sqlite3", ":memory:"], input=script, text=True, check=True, capture_output=True)


print(f"{count} rows: seconds, with the reading of the file")
for what, transforms, query, python in CASES:
    with open("spec.json", "w") as file:
        json.dump(spec(*transforms), file)
    ours = best(lambda: subprocess.run([program, "render", "spec.json"], check=True, capture_output=True))
    line = f"{what:26} {ours:6.2f}"
    if shutil.which("sqlite3"):
        theirs = best(lambda: sqlite(query))
        line += f"   sqlite3 {theirs:6.2f} ({ours / theirs:.2f})"
    if python:
        theirs = best(python)
        line += f"   python3 {theirs:6.2f} ({ours / theirs:.2f})"
    print(line, flush=True)
shutil.rmtree(folder)
PYTHON
