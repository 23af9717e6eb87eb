#!/usr/bin/env python3
"""Looks up that crates.txt and docs/MAP.md are true, and that the definitions of Vega-Lite stand on nothing of Vega.

- A crate's line in crates.txt names the crates that its files name, and no others. `rt` sums up the files of a crate once for each way that leads to it,
  so a name too many costs minutes in each crate above.
- Each crate has one row in the tables of docs/MAP.md, and no crate of the first table uses one of a row above it.
- The definitions of Vega-Lite name no crate of Vega: no file of `specs/` of those crates imports one whose name begins with `vega_`.
"""
import os
import re
import sys

TOP = os.path.dirname(os.path.dirname(os.path.abspath(__file__)))


def listed():
    """The lines of crates.txt: the names that each crate lists."""
    with open(f"{TOP}/crates.txt", encoding="utf-8") as file:
        return {line.split(":")[0].split()[0]: line.split(":")[1].split() for line in file if ":" in line}


def named(crate, names, parts=("src", "specs", "proofs")):
    """The crates that the files of a crate name, in these of its folders."""
    found = set()
    for part in parts:
        for at, _, files in os.walk(f"{TOP}/crates/{crate}/{part}"):
            for file in files:
                with open(f"{at}/{file}", encoding="utf-8") as it:
                    text = it.read()
                is_code = file.endswith(".rt")
                text = re.sub(r"//[^\n]*" if is_code else r"--[^\n]*", "", text)
                found.update(re.findall(r"Rattle\.(\w+)\.", text))
                if is_code:
                    found.update(re.findall(r"\b(\w+)::", text))
    return (found & names) - {crate}


def lines_told(lines, uses):
    """What is wrong in crates.txt."""
    told = []
    for crate, line in lines.items():
        own = {it for it in line if it in lines}
        told += [f"crates.txt: {crate} names {it} needlessly" for it in sorted(own - uses[crate])]
        told += [f"crates.txt: {crate} doesn't name {it}" for it in sorted(uses[crate] - own)]
    return told


def rows():
    """The crates of the first table of docs/MAP.md from the top on, and those of its second table."""
    tables, inside = [], False
    with open(f"{TOP}/docs/MAP.md", encoding="utf-8") as file:
        for line in file:
            cells = [it.strip() for it in line.split("|")[1:-1]]
            if len(cells) > 1 and set(line.strip()) == set("|-"):
                tables.append([])
                inside = True
            elif inside and cells:
                cell = cells[1] if len(tables) == 1 else cells[0]
                tables[-1] += re.findall(r"`(\w+)`", cell)
            else:
                inside = False
    return tables[0], tables[1]


def map_told(lines, uses):
    """What is wrong in docs/MAP.md."""
    floors, tests = rows()
    told = []
    for crate in lines:
        count = (floors + tests).count(crate)
        if count != 1:
            told.append(f"docs/MAP.md: {crate} has {count} rows")
    told += [f"docs/MAP.md: {it} is no crate" for it in floors + tests if it not in lines]
    place = {crate: at for at, crate in enumerate(floors)}
    for crate in floors:
        for used in sorted(uses[crate]) if crate in lines else []:
            if used not in place or place[used] < place[crate]:
                told.append(f"docs/MAP.md: {crate} uses {used}, which doesn't stand below it")
    return told


def definitions_of_vega_lite(crate):
    """Whether a crate holds definitions of Vega-Lite."""
    return crate.startswith("vl_") or crate in ("scale_infer", "plan_kit", "unit_plan", "guide_infer", "chart_plan", "chart_meaning")


def vega_told(lines):
    """Where definitions of Vega-Lite name a crate of Vega."""
    told = []
    for crate in filter(definitions_of_vega_lite, lines):
        names = named(crate, set(lines), ("specs",))
        told += [f"crates/{crate}/specs name {it}, a crate of Vega" for it in sorted(names) if it.startswith("vega_")]
    return told


def main():
    lines = listed()
    uses = {crate: named(crate, set(lines)) for crate in lines}
    told = lines_told(lines, uses) + map_told(lines, uses) + vega_told(lines)
    for line in told:
        print(f"crates: {line}", file=sys.stderr)
    print(f"crates: {len(lines)} looked up, {len(told)} mistakes")
    return 1 if told else 0


if __name__ == "__main__":
    sys.exit(main())
