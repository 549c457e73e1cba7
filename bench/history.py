#!/usr/bin/env python3
"""Tells the peak memory of the built program where edits can be undone, beside `edit`, which keeps none.

    python3 bench/history.py [PROGRAM]

PROGRAM is the file that `rt run` leaves in crates/mathlay/out/mathlay. A thousand edits are made, of small parts of a large tree and
of a large part of a small one, and then all are undone and redone. What a ring holds beside a session is what the edits took out:
the memory grows with that, and not with the tree. Figures with their dates stand in bench/history.txt.
"""
import json
import os
import subprocess
import sys
import tempfile

from instructions import file_in
from shapes import METRICS, PROGRAM, edits, rows_of, tree

COUNT = 1_000
# A program that `rt try` compiled is linked with an allocator that by itself holds back memory that was freed.
FREED = {"ASAN_OPTIONS": "quarantine_size_mb=0:thread_local_quarantine_size_kb=0"}
LARGE, GROUP = 4_096, 16  # rows, and rows of a group, of 13 elements each


def main():
    program = sys.argv[1] if len(sys.argv) > 1 else PROGRAM
    large, part = tree(LARGE, GROUP), tree(GROUP, GROUP)
    for name, value, script in (
            ("a row's number, script level or form, of 53,505 elements", large, list(edits(rows_of(large)[0], COUNT))),
            ("209 of 210 elements replaced", part, list(replaced(part)))):
        print(name)
        for words, lines in (
                (["edit"], script), (["history", "1"], script), (["history", "1000"], script),
                (["history", "1000"], script + [{"op": "undo"}] * COUNT + [{"op": "redo"}] * COUNT)):
            told = "" if lines is script else ", all undone and redone"
            print(f"  {' '.join(words)}{told}: {peak(program, words, value, lines):,} KiB", flush=True)


def replaced(value):
    """The only child of the root is replaced by an equal one, again and again: each gets new ids."""
    child, count = value["children"][0], elements(value["children"][0])
    for number in range(COUNT):
        yield {"op": "replace", "node": 2 + number * count, "element": child}


def elements(value):
    return 1 + sum(map(elements, value.get("children", ())))


def peak(program, words, value, lines):
    """The most memory in KiB that a run has: that of a process whose only child it is."""
    with tempfile.TemporaryDirectory() as folder:
        tree_file = file_in(folder, "tree", json.dumps(value))
        script = file_in(folder, "script", "\n".join(map(json.dumps, lines)))
        run = ("import resource, subprocess, sys; ended = subprocess.run(sys.argv[1:], stdout=subprocess.DEVNULL)\n"
               "print(ended.returncode, resource.getrusage(resource.RUSAGE_CHILDREN).ru_maxrss)")
        told = subprocess.run([sys.executable, "-c", run, program, *words, METRICS, tree_file, script], stdout=subprocess.PIPE, check=True,
                              env={**os.environ, **FREED})
        status, most = map(int, told.stdout.split())
        assert status == 0
        return most


if __name__ == "__main__":
    main()
