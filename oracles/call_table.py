#!/usr/bin/env python3
"""Writes the table of calls anew, crates/call_table/stdin and stdout. Each line is what is expected, the name of a call, and what it is told.

The lines of rows that are read, folded and looked up were written by hand: they stand first, and stay as they are.

Usage: oracles/call_table.py
"""
from pathlib import Path

import bin_table
import facet_table
import group_table
import layout_table
import order_table
import tick_table
import time_table
import window_table

FOLDER = Path(__file__).resolve().parent.parent / "crates/call_table"
BY_HAND = ("json", "csv", "fold", "folds", "lookup")


def main():
    old = (FOLDER / "stdin").read_text(encoding="utf-8").split("\n")
    lines = [line for line in old if "\t" in line and line.split("\t")[1] in BY_HAND]
    for part in (bin_table, group_table, facet_table, order_table, window_table):
        lines += part.lines()
    for part in (layout_table, tick_table, time_table):
        lines += part.LINES
    (FOLDER / "stdin").write_text("".join(line + "\n" for line in lines), encoding="utf-8")
    (FOLDER / "stdout").write_text(f"{len(lines)} lines\n", encoding="utf-8")


if __name__ == "__main__":
    main()
