#!/usr/bin/env python3
"""How long the built program takes to draw charts whose signals need each other in a chain, in seconds of processor time:
    bench/signals.py [PROGRAM [COUNT]]
Chains of COUNT computed signals (else 3,600), of half and of a quarter as many, each after the one that it needs, before it, and mixed; and of a tenth as many extents of
ten rows, each over those that the one before it keeps. Beside each stands how many times as long it takes as the one of half its size: about 2, where time is linear. The
status is 1 where the last of a chain has another value than expected."""
import json, os, random, resource, subprocess, sys, tempfile

TOP = os.path.dirname(os.path.dirname(os.path.abspath(__file__)))


def chart(signals, data, shown):
    """A specification whose one mark is the text of a signal."""
    text = {"type": "text", "from": {"data": "one"}, "encode": {"update": {"text": {"signal": shown}}}}
    data = [{"name": "one", "values": [0]}] + data
    return {"$schema": "https://vega.github.io/schema/vega/v5.json", "width": 10, "height": 10, "signals": signals, "data": data, "marks": [text]}


def computed(count, order):
    signals = [{"name": f"p{i}", "update": f"1 + p{i - 1}" if i else "1"} for i in range(count)]
    return chart(order(signals), [], f"p{count - 1}"), str(count)


def extents(count):
    rows = {"name": "t", "values": [{"a": i} for i in range(10)], "transform": [{"type": "extent", "field": "a", "signal": "x0"}]}
    kept = lambda i: [{"type": "filter", "expr": f"inrange(datum.a, x{i - 1})"}, {"type": "extent", "field": "a", "signal": f"x{i}"}]
    sets = [{"name": f"u{i}", "source": "t", "transform": kept(i)} for i in range(1, count)]
    return chart([], [rows] + sets, f"x{count - 1}"), "[0,9]"


def mixed(signals):
    random.Random(1).shuffle(signals)
    return signals


CASES = [
    ("signals, each after the one that it needs", 1, lambda n: computed(n, lambda s: s)),
    ("signals, each before the one that it needs", 1, lambda n: computed(n, lambda s: s[::-1])),
    ("signals, mixed", 1, lambda n: computed(n, mixed)),
    ("extents, each over what the one before it keeps", 10, extents),
]


def measured(program, spec):
    """The picture of a specification, and how long it took."""
    with tempfile.TemporaryDirectory() as folder:
        name = os.path.join(folder, "spec.json")
        with open(name, "w") as file:
            json.dump(spec, file)
        before = resource.getrusage(resource.RUSAGE_CHILDREN).ru_utime
        run = subprocess.run([program, "render", name], stdout=subprocess.PIPE, check=True)
        return run.stdout.decode(), resource.getrusage(resource.RUSAGE_CHILDREN).ru_utime - before


def main(words):
    program = words[0] if words else os.path.join(TOP, "crates", "chart_tool", "out", "chart_tool")
    most = int(words[1]) if len(words) > 1 else 3600
    right = True
    for what, less, make in CASES:
        print(f"{what}:")
        last = None
        for part in (4, 2, 1):
            count = most // less // part
            spec, wanted = make(count)
            picture, took = measured(program, spec)
            is_right = f">{wanted}<" in picture
            print(f"  {count:,}: {took:.2f} s" + (f" ({took / last:.1f} times)" if last else "") + ("" if is_right else "; NOT AS EXPECTED"), flush=True)
            last = took
            right = right and is_right
    return 0 if right else 1


if __name__ == "__main__":
    sys.exit(main(sys.argv[1:]))
