#!/bin/sh
# How long the reading of Vega specifications of 16 MiB takes, JSON and all rules, and how much memory: each has one fault, so that it is
# read and not drawn. Beside it python3's json on the same bytes. It proves and builds the program first, unless it is built. Run it with
# `rt` and python3 on the path.
set -e
top=$(cd "$(dirname "$0")/.." && pwd)
program=$top/crates/chart_tool/out/chart_tool
[ -x "$program" ] || "$top/chart" --prove
python3 - "$program" <<'PYTHON'
import json
import os
import resource
import subprocess
import sys
import tempfile
import time

program = sys.argv[1]
SIZE = 16 * 2**20 - 4096


def filled(before, item, after):
    parts, size, i = [], 0, 0
    while size < SIZE - len(before) - len(after):
        parts.append(item(i))
        size += len(parts[-1]) + 1
        i += 1
    return before + ",".join(parts) + after, i


def data(i):
    source = f'"source":"d{i - 1}"' if i else '"values":[]'
    return f'{{"name":"d{i}",{source},"transform":[{{"type":"filter","expr":"datum.a > s && datum[\'b\'] != {i}"}}]}}'


def signal(i):
    return f'{{"name":"s{i}","update":"s{i + 1} + 1"}}'


def group(i):
    return f'{{"type":"group","name":"g{i}","scales":[{{"name":"x","type":"linear","domain":[0,{i}],"range":"width"}}],"axes":[{{"scale":"x","orient":"left"}}]}}'


SIGNALS = '{"signals":[{"name":"s","value":1}],"data":['
last, count = filled('{"signals":[', signal, "")
CASES = [
    ("data sets, each over the one before, and one more over none", filled(SIGNALS, data, ',{"name":"last","source":"none"}]}')),
    ("signals, each of the next, in a ring", (last + f',{{"name":"s{count}","update":"s0"}}]}}', count)),
    ("groups with scales and axes, and a name that nothing has", filled('{"marks":[', group, '],"axes":[{"scale":"none","orient":"left"}]}')),
    ("members that no object has", filled("{", lambda i: f'"q{i}":{i}', "}")),
]
for what, (text, many) in CASES:
    with tempfile.TemporaryDirectory() as folder:
        name = os.path.join(folder, "spec.json")
        with open(name, "w") as file:
            file.write('{"$schema":"/schema/vega/",' + text[1:])
        start = time.time()
        run = subprocess.run(["/usr/bin/env", "python3", "-c", (
            "import resource, subprocess, sys; r = subprocess.run(sys.argv[1:], stdout=subprocess.DEVNULL, stderr=subprocess.PIPE); "
            "sys.stdout.buffer.write(r.stderr[:60]); sys.stderr.write(str(resource.getrusage(resource.RUSAGE_CHILDREN).ru_maxrss))"),
            program, "render", name], stdout=subprocess.PIPE, stderr=subprocess.PIPE, check=True)
        took = time.time() - start
        start = time.time()
        json.loads(text)
        peer = time.time() - start
        said = run.stdout.decode(errors="replace").strip()
        print(f"{what}: {many:,} in {len(text) / 2**20:.1f} MiB, found {said}, {took:.2f} s, {int(run.stderr) // 1024} MiB; python3's json alone {peer:.2f} s")
PYTHON
