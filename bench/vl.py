#!/usr/bin/env python3
"""How long two programs take for Vega-Lite specifications of three sizes (bench/vl.sh makes them), in seconds of processor time:
    bench/vl.py JUDGING BUILDING [BYTES]
JUDGING reads lines as `vl_table` does, an answer, a tab and a specification, and says how many lines there were where the first fault of each
is as said. BUILDING reads a specification a line, and says how many sources and parameters it has."""
import json
import resource
import subprocess
import sys
import tempfile
import time

judging, building = sys.argv[1:3]
WHOLE = (int(sys.argv[3]) if len(sys.argv) > 3 else 16 * 2**20) - 4096
LONGEST = 600  # seconds of processor time


def filled(size, before, item, after):
    """Items between two texts, up to a size; gives the text and how many there are."""
    parts, length, i = [], 0, 0
    while length < size - len(before) - len(after):
        parts.append(item(i))
        length += len(parts[-1]) + 1
        i += 1
    return before + ",".join(parts) + after, i


def condition(i):
    return f'{{"test":{{"field":"a","equal":{i}}},"value":"#{i:06}"}}'


def filter_(i):
    return f'{{"filter":{{"and":[{{"field":"a","range":[{i},null]}},{{"not":{{"param":"p{i}","empty":false}}}}]}}}}'


def parameter(i):
    return f'{{"name":"p{i}","select":{{"type":"interval","encodings":["x"]}},"views":["v{i}"]}}'


def view(i):
    return f'{{"data":{{"name":"d{i}","values":[{{"a":{i}}}]}},"mark":"bar","encoding":{{"x":{{"field":"a","bin":true}}}}}}'


def nameless(i):
    return f'{{"data":{{"values":[{{"a":{i}}}]}},"params":[{{"name":"p{i}","value":{i}}}],"mark":"bar"}}'


def by_name(i):
    return f'{{"data":{{"name":"d{i // 2}"}},"name":"v{i}","mark":"bar"}}'


def conditions(size):
    text, n = filled(size, UNIT, condition, "]}}}")
    return text, n, "ok", 0, 0


def conditions_and_one(size):
    text, n = filled(size, UNIT, condition, ',{"test":"true"}]}}}')
    return text, n, f"wrong /encoding/color/condition/{n}", 0, 0


def filters(size):
    text, n = filled(size, '{"mark":"bar","transform":[', filter_, "]}")
    return text, n, "ok", 0, 0


def parameters(size):
    text, n = filled(size, '{"mark":"bar","params":[', parameter, "]}")
    return text, n, "ok", 0, n


def views(size):
    text, n = filled(size, '{"hconcat":[', view, "]}")
    return text, n, "ok", n, 0


def views_and_one(size):
    text, n = filled(size, '{"hconcat":[', view, ',{"mark":"arc"}]}')
    return text, n, f"wrong /hconcat/{n}/mark", n, 0


def views_without_names(size):
    text, n = filled(size, '{"vconcat":[', nameless, "]}")
    return text, n, "ok", n, n


def views_by_names(size):
    text, n = filled(size, '{"concat":[', by_name, "]}")
    return text, n, "ok", (n + 1) // 2, 0


def datasets(size):
    text, n = filled(size * 2 // 7, '{"datasets":{', lambda i: f'"d{i}":[{i}]', '},"hconcat":[')
    return text + ",".join(f'{{"data":{{"name":"d{i}"}},"mark":"bar"}}' for i in range(n)) + "]}", n, "ok", n, 0


def members(size):
    text, n = filled(size, "{", lambda i: f'"q{i}":{i}', "}")
    return text, n, "unsupported /q0", 0, 0


UNIT = '{"mark":"bar","encoding":{"color":{"value":"red","condition":['
# Each gives of a size: a specification, how many parts it has, what its first fault is, and how many sources and parameters are built of it.
CASES = [
    ("conditions", conditions),
    ("conditions, the last of no form", conditions_and_one),
    ("filters", filters),
    ("parameters", parameters),
    ("views with data", views),
    ("views with data, the last with a mark that nothing knows", views_and_one),
    ("views with nameless data and a parameter", views_without_names),
    ("views over data by names", views_by_names),
    ("data sets by names, each with a view", datasets),
    ("members that no view has", members),
]


def limited():
    """Ends a program that takes far too long."""
    resource.setrlimit(resource.RLIMIT_CPU, (LONGEST, LONGEST))


RUN = ("import resource, subprocess, sys; r = subprocess.run([sys.argv[1]], stdout=subprocess.PIPE); u = resource.getrusage(resource.RUSAGE_CHILDREN); "
       "sys.stdout.buffer.write(r.stdout[:200]); sys.stderr.write(f'{u.ru_utime + u.ru_stime} {u.ru_maxrss}'); sys.exit(r.returncode != 0)")


def measured(program, line):
    """Runs a program over one line; gives what it says first, its seconds of processor time, and its memory in MiB."""
    with tempfile.TemporaryFile() as file:
        file.write(line.encode() + b"\n")
        file.seek(0)
        run = subprocess.run([sys.executable, "-c", RUN, program], stdin=file, stdout=subprocess.PIPE, stderr=subprocess.PIPE, preexec_fn=limited)
    took, memory = run.stderr.split()[-2:]
    said = "ended with an error" if run.returncode else run.stdout.decode(errors="replace").split("\n")[0].split(" at ")[0]
    return said, float(took), int(memory) // 1024


def times(now, before):
    """How many times as long as at half the size."""
    return f" ({now / before:.1f} times)" if before else ""


right = True
for what, made in CASES:
    print(what, flush=True)
    last_judged = last_built = None
    for part in (4, 2, 1):
        text, many, fault, sources, parameters = made(WHOLE // part)
        said, judged, judged_memory = measured(judging, fault + "\t" + text)
        has, built, built_memory = measured(building, text)
        is_right = said == "1 lines" and has == f"{sources} sources, {parameters} parameters"
        right = right and is_right
        start = time.process_time()
        json.loads(text)
        peer = time.process_time() - start
        print(f"  {many:,} in {len(text) / 2**20:.1f} MiB: judged {judged:.2f} s{times(judged, last_judged)}, {judged_memory} MiB; "
              f"built {built:.2f} s{times(built, last_built)}, {built_memory} MiB; python3's json alone {peer:.2f} s"
              + ("" if is_right else f"; NOT AS EXPECTED: judged {said}, built {has}"), flush=True)
        last_judged, last_built = judged, built
sys.exit(0 if right else 1)
