#!/bin/sh
# Times, over 199,000 rows, a change that modifies 50,000 of them and one that removes 50,000, beside printing that chart: each by what one
# such line adds to a run. It wants `rt` and python3 on the path.
set -e
top=$(cd "$(dirname "$0")/.." && pwd)
work=$(mktemp -d)
trap 'rm -rf "$work"' EXIT
"$top/chart" render "$top/examples/three-bars.json" > /dev/null
python3 - "$top" "$work" <<'PYTHON'
import json
import subprocess
import sys
import time

top, work = sys.argv[1:]
program = [f"{top}/crates/chart_tool/out/chart_tool", "play", f"{top}/examples/three-bars.json"]


def inserted(count, value):
    return json.dumps(["change", "t", {"insert": [{"a": f"c{i % 100}", "b": value} for i in range(count)]}], separators=(",", ":"))


# of 199,000 rows, with the three of the specification, 50,000 have 2 under `b`
ROWS = [inserted(25000, 2)] * 2 + [inserted(29799, 1)] * 5 + [inserted(2, 1)]
LINES = {
    "print": '["print"]',
    "modify": '["change","t",{"modify":[{"where":"datum.b == 2","field":"b","set":"datum.b + 1"}]}]',
    "remove": '["change","t",{"remove":"datum.b == 2"}]',
}


def seconds(lines):
    script = ("\n".join(lines) + "\n").encode()
    best = None
    for _ in range(5):
        start = time.time()
        run = subprocess.run(program, input=script, stdout=subprocess.PIPE, check=True)
        took = time.time() - start
        assert b"refused" not in run.stdout, run.stdout[:200]
        best = took if best is None else min(best, took)
    return best


before = seconds(ROWS)
took = {name: seconds([*ROWS, line]) - before for name, line in LINES.items()}
for name, time_of in took.items():
    print(f"{name}: {time_of * 1000:.0f} ms, {time_of / took['print']:.2f} times the print")
PYTHON
