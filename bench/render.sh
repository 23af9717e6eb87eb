#!/bin/sh
# Times drawing COUNT rows (200,000 if none is given) as rects, from a CSV and from a JSON file of their own, and gnuplot drawing as many boxes
# from the same CSV, all as SVG, and tells their peak memory. It wants the proved program, python3 and gnuplot on the path, and GNU time in
# /usr/bin.
set -e
count=${1:-200000}
top=$(cd "$(dirname "$0")/.." && pwd)
work=$(mktemp -d)
trap 'rm -rf "$work"' EXIT
program=$top/crates/chart_tool/out/chart_tool
[ -x "$program" ] || { echo "bench/render.sh: ./chart --prove makes the program" >&2; exit 1; }
python3 - "$count" "$work" <<'PYTHON'
import json
import sys

count, work = int(sys.argv[1]), sys.argv[2]
rows = [{"k": i, "v": (i * 7919) % 1000 + 0.25} for i in range(count)]
with open(f"{work}/rows.csv", "w") as file:
    file.write("k,v\n")
    file.writelines(f"{row['k']},{row['v']}\n" for row in rows)
with open(f"{work}/rows.json", "w") as file:
    json.dump(rows, file, separators=(",", ":"))


def linear(name, field, reach):
    return {"name": name, "type": "linear", "domain": {"data": "t", "field": field}, "zero": True, "nice": True, "range": reach}


for kind in ("csv", "json"):
    spec = {
        "$schema": "https://vega.github.io/schema/vega/v5.json",
        "width": 1000,
        "height": 400,
        "data": [{"name": "t", "url": f"rows.{kind}", "format": {"type": kind}}],
        "scales": [linear("x", "k", "width"), linear("y", "v", "height")],
        "marks": [
            {
                "type": "rect",
                "from": {"data": "t"},
                "encode": {
                    "update": {
                        "x": {"scale": "x", "field": "k"},
                        "width": {"value": 1},
                        "y": {"scale": "y", "field": "v"},
                        "y2": {"scale": "y", "value": 0},
                        "fill": {"value": "#4c78a8"},
                    }
                },
            }
        ],
    }
    with open(f"{work}/{kind}.json", "w") as file:
        json.dump(spec, file)
with open(f"{work}/boxes.gp", "w") as file:
    file.write(
        "set terminal svg size 1010,410\nset output 'boxes.svg'\nset datafile separator ','\nunset key\nset style fill solid\n"
        "set boxwidth 1\nplot 'rows.csv' every ::1 using 1:2 with boxes\n"
    )
PYTHON
cd "$work"
measure() {
    name=$1
    shift
    best=
    for turn in 1 2 3; do
        /usr/bin/time -f '%e %M' -o time "$@" >out 2>/dev/null
        took=$(cut -d' ' -f1 time)
        if [ -z "$best" ] || awk "BEGIN { exit !($took < $best) }"; then best=$took; fi
    done
    memory=$(cut -d' ' -f2 time)
    echo "$name $best $memory"
}
{
    measure csv "$program" render csv.json
    measure json "$program" render json.json
    if command -v gnuplot >/dev/null; then measure gnuplot gnuplot boxes.gp; fi
} | awk '{ took[$1] = $2; size[$1] = $3 / 1024; order[NR] = $1 }
    END {
        for (n = 1; n <= NR; n++) {
            name = order[n]
            printf "%s: %.2f s, %.0f MiB at the peak", name, took[name], size[name]
            if (name != "gnuplot" && ("gnuplot" in took)) printf ", %.2f times the time of gnuplot", took[name] / took["gnuplot"]
            printf "\n"
        }
    }'
