#!/usr/bin/env python3
"""Counts the instructions of the built program, which repeat from run to run: of `layout` of 53,249 elements in groups of 64
rows, of one edit of a tree of 833, and of one that is refused with `range` where 65,000 stand side by side.

    python3 bench/instructions.py [PROGRAM..]

PROGRAM is the file that `rt run` leaves in crates/mathlay/out/mathlay. It is run by `valgrind --tool=callgrind`, which has to be
installed. An edit is the difference of two scripts, by the edits that one has more: 500 and 2,500, or 10 and 60 where they are
refused. Of several programs each further one is told as a share of the first, too. Figures with their dates stand in
bench/instructions.txt.
"""
import json
import os
import re
import subprocess
import sys
import tempfile

from shapes import METRICS, PROGRAM, edits, rows_of, tree

# How many edits the two scripts have, and how many the scripts of refused ones have.
FEW, MANY = 500, 2_500
FEW_REFUSED, MANY_REFUSED = 10, 60


def instructions(words):
    """How many instructions a run takes."""
    run = subprocess.run(
        ["valgrind", "--tool=callgrind", "--callgrind-out-file=/dev/null", *words],
        stdout=subprocess.DEVNULL, stderr=subprocess.PIPE, text=True, check=True)
    return int(re.search(r"Collected : (\d+)", run.stderr)[1])


def file_in(folder, name, text):
    """The path of a new file."""
    path = os.path.join(folder, name)
    with open(path, "w") as out:
        out.write(text)
    return path


def of_layout(program, folder):
    """The instructions of a layout."""
    large = file_in(folder, "large", json.dumps(tree(4_096, 64)))
    return instructions([program, "layout", METRICS, large])


def of_an_edit(program, folder):
    """The instructions of an edit."""
    value = tree(64, None)
    small = file_in(folder, "small", json.dumps(value))
    ids, _ = rows_of(value)
    return of_scripts(program, folder, small, lambda count: edits(ids, count), FEW, MANY)


def of_a_refused_edit(program, folder):
    """The instructions of an edit whose layout is refused, at the one element that it makes too large."""
    flat = file_in(folder, "flat", json.dumps({"name": "math", "children": [{"name": "mi", "text": "x"}] * 65_000}))
    too_large = {"op": "attr", "node": 2, "name": "mathsize", "value": "9999px"}
    return of_scripts(program, folder, flat, lambda count: [too_large] * count, FEW_REFUSED, MANY_REFUSED)


def of_scripts(program, folder, tree_file, script, few, many):
    """The instructions of one line more, from a script of a few to one of many."""
    less, more = (
        instructions([program, "edit", METRICS, tree_file, file_in(folder, str(count), lines(script(count)))])
        for count in (few, many))
    return (more - less) / (many - few)


def main():
    programs = sys.argv[1:] or [PROGRAM]
    with tempfile.TemporaryDirectory() as folder:
        for name, count in (
                ("layout of 53,249 elements in groups of 64", of_layout), ("an edit of 833 elements", of_an_edit),
                ("a refused edit of 65,001 elements side by side", of_a_refused_edit)):
            first, *others = (count(program, folder) for program in programs)
            shares = "".join(f"; {other:,.0f}, {other / first:.4f} of it" for other in others)
            print(f"{name}: {first:,.0f}{shares}", flush=True)


def lines(values):
    """JSON values, a line each."""
    return "".join(json.dumps(value) + "\n" for value in values)


if __name__ == "__main__":
    main()
