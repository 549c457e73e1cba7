#!/usr/bin/env python3
"""Counts the instructions of the built program over pages of many boxes, which repeat from run to run: of `layout`, `paint`, `hit`
and `select` of some 64,000 elements in groups of 64 rows, and of `layout` and `hit` of nearly as many as a tree may have, 65,536.

    python3 bench/pages.py [PROGRAM]

PROGRAM is the file that `rt run` leaves in crates/mathlay/out/mathlay. It is run by `valgrind --tool=callgrind`, which has to be
installed. All four commands read the files, lay the tree out and place it; beside that `layout` writes a line for each box and
mark, `paint` one for each glyph and rule, and the others go over the boxes once. Figures with their dates stand in bench/pages.txt.
"""
import json
import sys
import tempfile

from instructions import file_in, instructions
from shapes import METRICS, PROGRAM, tree

# Rows of 13 elements each, in groups of 64.
ROWS, MOST_ROWS = 4_917, 5_035


def main():
    program = sys.argv[1] if len(sys.argv) > 1 else PROGRAM
    with tempfile.TemporaryDirectory() as folder:
        for rows, name, commands in (
                (ROWS, "large", (["layout"], ["paint"], ["hit", "100", "0"], ["select", "2", "3"])),
                (MOST_ROWS, "most", (["layout"], ["hit", "100", "0"]))):
            value = tree(rows, 64)
            file = file_in(folder, name, json.dumps(value))
            for verb, *others in commands:
                print(f"{verb} of {count(value):,} elements: {instructions([program, verb, METRICS, file, *others]):,}", flush=True)


def count(value):
    """How many elements there are."""
    return 1 + sum(map(count, value.get("children", ())))


if __name__ == "__main__":
    main()
