#!/usr/bin/env python3
"""How long the built program takes to judge and compile large Vega-Lite specifications, in seconds of processor time, and how much memory:
    bench/vl_read.py [PROGRAM [BYTES [CASE..]]]
Each is measured at a quarter, at half and at all of 16 MiB, compiled, with a fault at its end, and with another behind that, with how many times as long it takes
as the one of half its size: about 2, where time is linear. Further words name the cases that are measured. The status is 1 where something else is told than expected."""
import os, resource, subprocess, sys, tempfile

TOP = os.path.dirname(os.path.dirname(os.path.abspath(__file__)))
LONGEST = 600  # seconds of processor time
DATA = '"data":{"name":"t","values":[]}'


def filled(size, before, item, after):
    """Items between two texts, up to a size; gives the text and how many there are."""
    parts, length, i = [], 0, 0
    while length < size - len(before) - len(after) - 200:
        parts.append(item(i))
        length += len(parts[-1].encode()) + 1
        i += 1
    return before, parts, after


def data_sets(size):
    before, parts, after = filled(size, '{"data":{"name":"t","values":[]},"mark":"point","datasets":{', lambda i: f'"d{i}":[{{"a":{i}}}]', "}}")
    return before, parts, after, lambda n: ('"t":[]', "wrong /datasets/t")


def lookups(size):
    before, parts, after = filled(size, "{" + DATA + ',"transform":[', lambda i: f'{{"lookup":"k","from":{{"data":{{"name":"e{i}","values":[]}},"key":"k","fields":["v"]}}}}', '],"mark":"point"}')
    return before, parts, after, lambda n: (f'{{"lookup":"k","from":{{"data":{{"name":"e{n // 2}","values":[]}},"key":"k","fields":["v"]}}}}', f"wrong /transform/{n}/from/data/name")


def parameters(size):
    before, parts, after = filled(size, "{" + DATA + ',"mark":"point","params":[', lambda i: f'{{"name":"p{i}","expr":"1 + {f"p{i - 1}" if i else 1}"}}', "]}")
    return before, parts, after, lambda n: (f'{{"name":"q","expr":"p{n}"}}', f"wrong /params/{n}/expr")


def circle(size):
    before, parts, after = filled(size, "{" + DATA + ',"mark":"point","params":[', lambda i: f'{{"name":"p{i}","expr":"1 + p{i + 1}"}}', "]}")
    return before, parts, after, lambda n: (f'{{"name":"p{n}","expr":"p0"}}', "wrong /params/0/expr")


def selections(size):
    before, parts, after = filled(size, "{" + DATA + ',"mark":"point","encoding":{"x":{"field":"a","type":"quantitative"}},"params":[', lambda i: f'{{"name":"p{i}","select":{{"type":"interval","encodings":["x"]}}}}', "]}")
    return before, parts, after, lambda n: ('{"name":"q","select":{"type":"interval","encodings":["y"]}}', f"wrong /params/{n}/select")


def conditions(size):
    before, parts, after = filled(size, "{" + DATA + ',"params":[{"name":"k"}],"mark":"point","encoding":{"color":{"condition":[', lambda i: f'{{"test":"k == {i} && datum.a > {i}","value":"#{i % 10**6:06}"}}', "]}}}")
    return before, parts, after, lambda n: ('{"param":"j","value":"red"}', f"wrong /encoding/color/condition/{n}/param")


def filters(size):
    before, parts, after = filled(size, "{" + DATA + ',"params":[{"name":"k","select":"point"}],"mark":"point","transform":[', lambda i: f'{{"filter":{{"and":[{{"field":"a","range":[{i},null]}},{{"not":{{"param":"k","empty":false}}}}]}}}}', "]}")
    return before, parts, after, lambda n: ('{"filter":"datum.a >"}', f"wrong /transform/{n}/filter")


def nested(size):
    """One filter: a list of chains of 40 filters in each other, near as deep as JSON nests, each of which negates a list of a filter and the next."""
    def chain(i):
        inner = f'{{"field":"a","equal":{i}}}'
        for _ in range(20):
            inner = f'{{"not":{{"and":["datum.a > {i}",{inner}]}}}}'
            inner = f'{{"not":{{"or":[{{"param":"k"}},{inner}]}}}}'
        return inner
    before, parts, after = filled(size, "{" + DATA + ',"params":[{"name":"k","select":"point"}],"mark":"point","transform":[{"filter":{"or":[', chain, "]}}]}")
    return before, parts, after, lambda n: ('{"not":{"and":["datum.a >"]}}', f"wrong /transform/0/filter/or/{n}/not/and/0")


def units(size):
    before, parts, after = filled(size, "{" + DATA + ',"hconcat":[', lambda i: f'{{"name":"v{i}","mark":"point"}}', "]}")
    return before, parts, after, lambda n: ('{"mark":"arc"}', "wrong /hconcat/32")


def kept(size):
    """Two units that keep the same fields of a selection, in another order."""
    before, parts, after = filled(size // 2, '{"mark":"point","encoding":{"detail":[', lambda i: f'{{"field":"a field of a long name, number {i}"}}', "]}}]}")
    other = before + ",".join(reversed(parts)) + "]}}"
    return "{" + DATA + ',"params":[{"name":"p","select":{"type":"point","encodings":["detail"]}}],"hconcat":[' + other + "," + before, parts, after, lambda n: ('{"field":"another"}', "wrong /params/0/select")


CASES = [("data sets", data_sets), ("lookups over their data", lookups), ("parameters, each over the last", parameters), ("parameters, each over the next", circle), ("selections", selections),
         ("conditions", conditions), ("filters", filters), ("filters in each other", nested), ("units", units), ("fields that two units keep", kept)]


def measured(program, room, word, text):
    """What the program says of the word, its seconds of processor time, and its memory in MiB."""
    with open(f"{room}/s.json", "w") as file:
        file.write(text)
    run = ("import resource, subprocess, sys; r = subprocess.run(sys.argv[1:], stdout=subprocess.DEVNULL, stderr=subprocess.PIPE); u = resource.getrusage(resource.RUSAGE_CHILDREN); "
           "print(u.ru_utime + u.ru_stime, u.ru_maxrss, r.returncode, r.stderr.decode(errors='replace').strip('\\n'))")
    ran = subprocess.run([sys.executable, "-c", run, program, word, "s.json"], cwd=room, stdout=subprocess.PIPE, text=True,
                         preexec_fn=lambda: resource.setrlimit(resource.RLIMIT_CPU, (LONGEST, LONGEST)))
    took, memory, status, *note = ran.stdout.rstrip("\n").split(" ", 3)
    said = note[0] if note else ""
    return (said.removeprefix("chart: spec ") if status == "4" else f"{status} {said}"), float(took), int(memory) // 1024


def main(words):
    program = os.path.abspath(words[0] if words else f"{TOP}/crates/chart_tool/out/chart_tool")
    whole = (int(words[1]) if len(words) > 1 else 2**24) - 4096
    only = words[2:]
    right = True
    with tempfile.TemporaryDirectory(prefix="vl_read-") as room:
        for what, make in CASES:
            if only and what not in only:
                continue
            print(what, flush=True)
            last = None
            for part in (4, 2, 1):
                before, parts, after, spoil = make(whole // part)
                one, wanted = spoil(len(parts))
                if what == "parameters, each over the next":
                    good = ("wrong /params/%d/expr" % (len(parts) - 1), ",".join(parts))
                elif what == "units":
                    good = ("wrong /hconcat/32", ",".join(parts))
                else:
                    good = ("0 ", ",".join(parts))
                said, took, memory = measured(program, room, "compile", before + good[1] + after)
                is_right = said == good[0]
                more = "; with a fault at its end"
                for end in (after, after[:-1] + ',"typo":1}'):
                    told, spoiled, most = measured(program, room, "render", before + ",".join(parts + [one]) + end)
                    is_right = is_right and told == wanted
                    more += f" {spoiled:.2f} s, {most} MiB" + ("" if told == wanted else f" NOT AS EXPECTED: {told}") + ("; with another behind it" if end == after else "")
                print(f"  {len(parts):,} in {whole / part / 2**20:.1f} MiB: {took:.2f} s" + (f" ({took / last:.1f} times)" if last else "") + f", {memory} MiB{more}"
                      + ("" if said == good[0] else f"; NOT AS EXPECTED: {said}"), flush=True)
                last = took
                right = right and is_right
    return 0 if right else 1


if __name__ == "__main__":
    sys.exit(main(sys.argv[1:]))
