#!/usr/bin/env python3
"""Times the built program on a tree of 833 elements and on the same shape with 53,249 elements, flat and in groups of
64 rows: how long it takes to read a tree, to lay it out, to place and write its boxes, and to answer an edit. And on 90
elements in 60 levels, of which each element is asked in two contexts.

    python3 bench/layout.py [PROGRAM]

PROGRAM is the file that `rt run` leaves in crates/mathlay/out/mathlay. The parts are differences of whole runs: as the
annotation of a letter a tree is read and not laid out; an empty script has a tree laid out and nothing written. Each
run is made five times, of which the least time counts, and once more for the peak memory.
"""
import json
import os
import subprocess
import sys
import tempfile
import time

from shapes import METRICS, PROGRAM, edits, nested, rows_of, tree

# Each tree: its rows, how many of them stand in a group, if they do, and how many edits are timed on it: so many that some
# of them drop what isn't needed any more.
TREES = {"833 elements": (64, None, 20_000), "53,249 elements, flat": (4_096, None, 2_000), "53,249, in groups of 64": (4_096, 64, 2_000)}


def run(words, status=0):
    """The processor seconds and the peak memory in KB of a run, and how many bytes it wrote."""
    with tempfile.TemporaryFile() as out:
        child = subprocess.Popen(words, stdout=out)
        _, ending, usage = os.wait4(child.pid, 0)
        child.returncode = os.waitstatus_to_exitcode(ending)
        if child.returncode != status:
            sys.exit(f"{words} ended with {child.returncode}")
        return usage.ru_utime + usage.ru_stime, usage.ru_maxrss, out.tell()


def least(words, status=0):
    """The least seconds of five runs."""
    return min(run(words, status)[0] for _ in range(5))


def file_in(folder, kind, text):
    """The path of a new file."""
    path = os.path.join(folder, kind)
    with open(path, "w") as out:
        out.write(text)
    return path


def measure(program, folder, name, rows, group, count):
    value = tree(rows, group)
    ids, elements = rows_of(value)
    whole, empty = file_in(folder, "tree", json.dumps(value)), file_in(folder, "empty", "")
    letter, annotation = {"name": "mi", "text": "x"}, {"name": "annotation-xml", "children": [value]}
    annotated = {"name": "math", "children": [{"name": "semantics", "children": [letter, annotation]}]}
    unlaid = file_in(folder, "unlaid", json.dumps(annotated))
    script = file_in(folder, "script", "".join(json.dumps(edit) + "\n" for edit in edits(ids, count)))
    reading = least([program, "layout", METRICS, unlaid])
    laid_out = least([program, "edit", METRICS, whole, empty])
    edited = least([program, "edit", METRICS, whole, script])
    written = least([program, "layout", METRICS, whole])
    _, peak, size = run([program, "layout", METRICS, whole])
    layout, edit = laid_out - reading, (edited - laid_out) / count
    print(f"{name} ({elements}):")
    print(f"  started and read in {reading * 1e3:.1f} ms, laid out in {layout * 1e3:.1f} ms ({layout / elements * 1e6:.2f} us an element)")
    print(f"  placed and written in {(written - laid_out) * 1e3:.1f} ms, {size} bytes; {peak} KB at the peak")
    print(f"  {count} edits: {edit * 1e6:.1f} us each")


def measure_nested(program, folder):
    value = nested(29)
    whole, empty = file_in(folder, "tree", json.dumps(value)), file_in(folder, "empty", "")
    seconds = least([program, "edit", METRICS, whole, empty]) - least([program, "check", METRICS, whole])
    print(f"{rows_of(value)[1]} elements in 60 levels, asked in two contexts each: laid out in {seconds * 1e3:.1f} ms")


def main():
    program = sys.argv[1] if len(sys.argv) > 1 else PROGRAM
    with tempfile.TemporaryDirectory() as folder:
        for name, (rows, group, count) in TREES.items():
            measure(program, folder, name, rows, group, count)
        measure_nested(program, folder)


main()
