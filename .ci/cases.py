#!/usr/bin/env python3
"""Replays the cases of cases/ on the built program, many at once: python3 .ci/cases.py [PROGRAM [FILE..]]; FILE=NAME replays those of a file
whose name has NAME in it.

A file of cases is a description, parts that all of its cases share, and cases. `=== NAME` begins a case, `--- HEAD` a part:
- `--- $ COMMAND` is run by sh, `chart` being the program: its lines behind `> ` are its standard input, the others what it has to write.
  `both render s.json` and `both play s.json` are for Vega-Lite: they do the same, and then again over the Vega text to which the file is compiled,
  and say so where output, notes or status differ;
- `--- ends with N` gives the status and the standard error of the command above; without it these are 0 and nothing;
- `--- @NAME` is a text that stands in the files where they say @NAME;
- any other HEAD is the name of a file, `(no line feed at its end)` behind it said where that is so.
Blank lines at the end of a part don't count. What stands before the first part is read by people only.
"""
import os, re, signal, subprocess, sys, tempfile
from concurrent.futures import ThreadPoolExecutor

TOP = os.path.dirname(os.path.dirname(os.path.abspath(__file__)))
BARE = b" (no line feed at its end)"
# a command has at most 2,000,000 KiB
LIMITS = b"ulimit -v 2000000\n"
WORDS = rb"""chart() { "$PROGRAM" "$@"; }
both() {
    cat >.typed
    chart "$1" "$2" <.typed >.first 2>.said
    status=$?
    cat .first
    cat .said >&2
    : >.second
    chart compile "$2" >.compiled.json 2>.said-again && chart "$1" .compiled.json <.typed >.second 2>.said-again
    again=$?
    [ $again -eq $status ] && cmp -s .first .second && cmp -s .said .said-again || echo "the compiled text does otherwise: status $again"
    return $status
}
"""


class Part:
    def __init__(self, head, at):
        self.head, self.at, self.lines = head, at, []

    def text(self, lines=None):
        lines = list(self.lines if lines is None else lines)
        while lines and not lines[-1]:
            lines.pop()
        return b"".join(line + b"\n" for line in lines)


def parts_of(text):
    """The parts that all cases share, and each case as its name, its line and its parts."""
    shared, cases, here = [], [], None
    parts = shared
    for at, line in enumerate(text.split(b"\n"), 1):
        if line.startswith(b"=== "):
            parts, here = [], None
            cases.append((line[4:].decode(), at, parts))
        elif line.startswith(b"--- "):
            here = Part(line[4:], at)
            parts.append(here)
        elif here:
            here.lines.append(line)
    return shared, cases


def one_line(text, at):
    lines = text.split(b"\n")
    if at >= len(lines) or (at == len(lines) - 1 and not lines[at]):
        return "the end"
    shown = lines[at].decode(errors="replace")
    return repr(shown if len(shown) <= 160 else shown[:157] + "..")


def difference(what, given, wanted):
    """What is told of the first line that differs, if one does."""
    if given == wanted:
        return []
    pairs = zip(given.split(b"\n"), wanted.split(b"\n"))
    at = next((n for n, (a, b) in enumerate(pairs) if a != b), min(given.count(b"\n"), wanted.count(b"\n")))
    return [f"line {at + 1} of {what} is {one_line(given, at)}, wanted is {one_line(wanted, at)}"]


def run(part, ends, room, env):
    """Runs a command; tells how it differs from what is wanted."""
    typed = [it[2:] for it in part.lines if it.startswith(b"> ") or it == b">"]
    output = part.text([it for it in part.lines if not (it.startswith(b"> ") or it == b">")])
    status, notes = 0, b""
    if ends:
        status, notes = int(ends.head.removeprefix(b"ends with ")), ends.text()
    words = LIMITS + WORDS + part.head[2:]
    pipe = subprocess.PIPE
    ran = subprocess.Popen(["sh", "-c", words], cwd=room, env=env, stdin=pipe, stdout=pipe, stderr=pipe, start_new_session=True)
    try:
        given, said = ran.communicate(b"".join(it + b"\n" for it in typed), timeout=60)
    except subprocess.TimeoutExpired:
        os.killpg(ran.pid, signal.SIGKILL)
        ran.communicate()
        return ["ran for a minute"]
    told = difference("the output", given, output) + difference("the notes", said, notes)
    if ran.returncode != status:
        told.insert(0, f"the status is {ran.returncode}, wanted is {status}")
    return told


def put(part, texts, room):
    """Writes a file."""
    name, is_bare = part.head, part.head.endswith(BARE)
    if is_bare:
        name = name.removesuffix(BARE)
    text = part.text()
    if is_bare:
        text = text[:-1]
    if texts:
        text = re.sub(rb"@[A-Z]+", lambda it: texts.get(it[0], it[0]), text)
    path = os.path.join(os.fsencode(room), name)
    os.makedirs(os.path.dirname(path), exist_ok=True)
    with open(path, "wb") as file:
        file.write(text)


def replay(file, shared, case, env):
    """Plays a case through in a folder of its own; gives a line for each command that differs."""
    name, _, parts = case
    parts = shared + parts
    texts = {it.head: it.text().rstrip(b"\n") for it in parts if it.head.startswith(b"@")}
    told, commands = [], 0
    with tempfile.TemporaryDirectory(prefix="cases-") as room:
        for part, after in zip(parts, parts[1:] + [None]):
            if part.head.startswith(b"$ "):
                ends = after if after and after.head.startswith(b"ends with ") else None
                told += [f"{file}:{part.at}: {name}: {it}" for it in run(part, ends, room, env)]
                commands += 1
            elif not part.head.startswith((b"@", b"ends with ")):
                put(part, texts, room)
    return told if commands else [f"{file}: {name}: no command"]


def main(words):
    program = words[0] if words else f"{TOP}/crates/chart_tool/out/chart_tool"
    if not os.access(program, os.X_OK):
        sys.exit(f"cases: there is no program {program}: ./chart --prove builds it")
    env = {**os.environ, "PROGRAM": os.path.abspath(program)}
    wanted = [word.partition("=")[::2] for word in words[1:]]
    if not wanted:
        for folder, _, names in sorted(os.walk(f"{TOP}/cases")):
            wanted += [(f"{folder}/{it}", "") for it in sorted(names) if it.endswith(".cases")]
    jobs = []
    with ThreadPoolExecutor(2 * (os.cpu_count() or 1)) as pool:
        for file, name in wanted:
            with open(file, "rb") as it:
                shared, cases = parts_of(it.read())
            shown = os.path.relpath(file, TOP)
            jobs += [pool.submit(replay, shown, shared, case, env) for case in cases if name in case[0]]
        told = [job.result() for job in jobs]
    failed = [it for it in told if it]
    for lines in failed:
        print("\n".join(f"cases: {it}" for it in lines), file=sys.stderr)
    print(f"cases: {len(told) - len(failed)} passed, {len(failed)} failed")
    return 1 if failed or not told else 0


if __name__ == "__main__":
    sys.exit(main(sys.argv[1:]))
