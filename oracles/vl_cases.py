#!/usr/bin/env python3
"""Draws what the cases of cases/vega-lite with `both render` and `both play` have to give, apart from the program: by oracles/vl_pictures.py.

Usage: oracles/vl_cases.py [--write] [FILE..], without a file all of them. It tells the cases that differ; with `--write` it writes their output anew.
Passed over are commands that make their files by sh, and runs whose rows are bad.
"""
import glob
import json
import os
import re
import sys
import tempfile
from fractions import Fraction as F

TOP = os.path.dirname(os.path.dirname(os.path.abspath(__file__)))
sys.path[:0] = [TOP + "/.ci", TOP + "/oracles"]
sys.dont_write_bytecode = True
import cases
import vl_pictures


def command_of(part):
    found = re.fullmatch(rb"\$ both (render|play) (\S+)", part.head)
    return found and (found[1].decode(), found[2].decode())


def drawn(word, spec, typed):
    """The lines of the output, the replies behind what is typed; or the note with which the run ends."""
    try:
        if word == "render":
            return vl_pictures.svg_of(vl_pictures.picture_of(spec)).splitlines(), None
        live, lines = vl_pictures.Live(spec), []
        live.picture()
        for line in typed:
            lines.append("> " + line)
            if line and not line.startswith("#"):
                lines += live.reply(line).splitlines()
        return lines, None
    except vl_pictures.Overflow:
        return [], "chart: overflow"
    except vl_pictures.Panels as e:
        return [], f"chart: panels {e.args[0]}"


def answers(parts):
    """What each command that can be drawn here has to give."""
    texts = {it.head: it.text().rstrip(b"\n") for it in parts if it.head.startswith(b"@")}
    with tempfile.TemporaryDirectory(prefix="vl_cases-") as room:
        there = os.getcwd()
        for part in parts:
            if not part.head.startswith((b"$ ", b"@", b"ends with ")):
                cases.put(part, texts, room)
        os.chdir(room)
        try:
            for at, part in enumerate(parts):
                command = command_of(part)
                if command is None or not os.path.exists(command[1]):
                    continue
                with open(command[1], encoding="utf-8") as file:
                    spec = json.load(file, parse_float=F, parse_int=F)
                after = parts[at + 1].head if at + 1 < len(parts) else b""
                if after != b"ends with 5":
                    yield part, after.startswith(b"ends with ") and parts[at + 1], drawn(command[0], spec, [it[2:].decode() for it in part.lines if it.startswith(b"> ")])
        finally:
            os.chdir(there)


def main(words):
    writing = words[:1] == ["--write"]
    files = words[1 if writing else 0:] or sorted(glob.glob(TOP + "/cases/vega-lite/*.cases"))
    done = wrong = 0
    for name in files:
        with open(name, "rb") as file:
            lines = file.read().split(b"\n")
        shared, found = cases.parts_of(b"\n".join(lines))
        new = {}
        for title, _, parts in found:
            for part, ends, (output, note) in answers(shared + parts):
                done += 1
                is_same = part.text() == "".join(it + "\n" for it in output).encode() and (ends.text().decode() if ends else None) == (note and note + "\n")
                if not is_same:
                    wrong += 1
                    new[part.at] = len(part.lines), output
                    if not writing or note:
                        print(f"vl_cases: {os.path.relpath(name, TOP)}:{part.at}: {title}: differs{', ' + note if note else ''}", file=sys.stderr)
        if writing and new:
            for at, (count, output) in sorted(new.items(), reverse=True):
                blanks = [b""] if at + count < len(lines) and not lines[at + count - 1] else []
                lines[at:at + count] = [it.encode() for it in output] + blanks
            with open(name, "wb") as file:
                file.write(b"\n".join(lines))
    print(f"vl_cases: {done - wrong} alike, {wrong} {'written anew' if writing else 'differ'}")
    return 1 if wrong and not writing else 0


if __name__ == "__main__":
    sys.exit(main(sys.argv[1:]))
