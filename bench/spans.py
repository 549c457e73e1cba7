#!/usr/bin/env python3
"""Counts the instructions of a `layout` of tables of 65,536 elements, and tells the processor seconds and the peak memory of it
and the seconds of an edit: of a plain table, and of the most hostile ones that were found whose cells span.

    python3 bench/spans.py [PROGRAM]

PROGRAM is the file that `rt run` leaves in crates/mathlay/out/mathlay. Instructions are counted by `valgrind --tool=callgrind`,
which has to be installed; an edit is the difference of a script of three edits and one of one, the least of three times each.
Figures with their dates stand in bench/spans.txt.
"""
import json
import os
import subprocess
import sys
import tempfile

from instructions import file_in, instructions
from shapes import METRICS, PROGRAM

ROWS, ELEMENTS = 1_000, 65_536
# How many cells the first row of a hostile table has: what is left when each row below it has one.
FIRST = ELEMENTS - 2 - ROWS - (ROWS - 1)
# How many values of `rowspan` fall one after the other, so that searches go through the most cells.
FALLING = 577


def cell(columns=1, rows=1):
    if columns == rows == 1:
        return {"name": "mtd"}
    return {"name": "mtd", "attributes": {"columnspan": str(columns), "rowspan": str(rows)}}


def table(rows):
    return {"name": "math", "children": [{"name": "mtable", "children": [{"name": "mtr", "children": row} for row in rows]}]}


def below(first):
    """A row of many cells above rows of one."""
    return table([first] + [[cell()] for _ in range(ROWS - 1)])


TABLES = {
    "plain, 1,000 rows of 64 cells": lambda: table([[cell() for _ in range(64)] for _ in range(ROWS)]),
    "63,535 cells of 64 columns and 1,000 rows above 999 rows of a cell": lambda: below([cell(64, ROWS)] * FIRST),
    "the same, their rows falling from 1,000 to 424 again and again": lambda: below(
        [cell(64, ROWS - place % FALLING) for place in range(FIRST)]),
}


def edits(count):
    """So many edits of the first cell of a table."""
    sizes = (f"{size + 1}px" for size in range(count))
    return "".join(json.dumps({"op": "attr", "node": 4, "name": "mathsize", "value": size}) + "\n" for size in sizes)


def usage(words):
    """The processor seconds and the peak memory in MB of a run: the least of three times."""
    return min(usage_once(words) for _ in range(3))


def usage_once(words):
    child = subprocess.Popen(words, stdout=subprocess.DEVNULL)
    _, ending, used = os.wait4(child.pid, 0)
    child.returncode = os.waitstatus_to_exitcode(ending)
    if child.returncode:
        sys.exit(f"{words} ended with {child.returncode}")
    return used.ru_utime + used.ru_stime, used.ru_maxrss // 1024


def main():
    program = sys.argv[1] if len(sys.argv) > 1 else PROGRAM
    with tempfile.TemporaryDirectory() as folder:
        one, three = (file_in(folder, str(count), edits(count)) for count in (1, 3))
        for name, make in TABLES.items():
            tree = file_in(folder, "tree", json.dumps(make(), separators=(",", ":")))
            seconds, memory = usage([program, "layout", METRICS, tree])
            few, many = (usage([program, "edit", METRICS, tree, script])[0] for script in (one, three))
            count = instructions([program, "layout", METRICS, tree])
            print(f"{name}: {count:,}; {seconds:.1f} s and {memory} MB; an edit {(many - few) / 2:.2f} s", flush=True)


if __name__ == "__main__":
    main()
