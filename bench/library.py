#!/usr/bin/env python3
"""A keystroke through the library beside one through the program: an edit of 833 elements and its reply, in instructions and in
microseconds; and a session that is opened over the bytes of its files beside one that is started with metrics that were read before.

    python3 bench/library.py [PROGRAM [ARCHIVE]]

PROGRAM is the file that `rt run` leaves in crates/mathlay/out/mathlay, and ARCHIVE the libmathlay.a that `make library` makes.
Both answer the same scripts, bench/library/script.c by the library; bench/library/opens.c opens and closes sessions. Instructions are counted by `valgrind --tool=callgrind`, as
bench/instructions.py does it; each is the difference of a script of many edits and one of few. Of five times the least counts.
Figures with their dates stand in bench/library.txt.
"""
import json
import os
import re
import subprocess
import sys
import tempfile
import time

from shapes import HERE, METRICS, PROGRAM, edits, rows_of, tree

TOP = os.path.join(HERE, "..")
ARCHIVE = os.path.join(TOP, "libmathlay.a")
FEW, MANY = 500, 2_500
FONT, QUADRATIC = (os.path.join(TOP, "samples", name) for name in ("latin-modern-math.metrics", "quadratic.json"))


def instructions(words):
    """How many instructions a run takes."""
    with tempfile.NamedTemporaryFile("r") as counts:
        counting = ["valgrind", "-q", "--tool=callgrind", f"--callgrind-out-file={counts.name}"]
        subprocess.run([*counting, *words], stdout=subprocess.DEVNULL, check=True)
        with open(counts.name) as written:
            return int(re.search(r"^totals: (\d+)$", written.read(), re.MULTILINE)[1])


def microseconds(words):
    """The least processor time of five runs."""
    def once():
        before = os.times()
        subprocess.run(words, stdout=subprocess.DEVNULL, check=True)
        after = os.times()
        return after.children_user + after.children_system - before.children_user - before.children_system
    return min(once() for _ in range(5)) * 1e6


def through_python(tree_bytes, lines):
    """The microseconds of an edit through bindings/python, by the clock."""
    sys.path.insert(0, os.path.join(TOP, "bindings", "python"))
    from mathlay import Session
    with open(METRICS, "rb") as file, Session(file.read(), tree_bytes) as session:
        began = time.perf_counter()
        for line in lines:
            session.line(line)
        return (time.perf_counter() - began) / len(lines) * 1e6


def told(what, count, ways, few, many):
    """Tells what each of the ways takes once, by the difference of many and few."""
    each = {name: (count(way(many)) - count(way(few))) / (many - few) for name, way in ways.items()}
    figures = ", ".join(f"{name} {figure:,.1f}" for name, figure in each.items())
    first, last = each.values()
    print(f"{what}: {figures}; {last / first:.3f} of the first")


def main():
    program, archive = (*sys.argv[1:], *[PROGRAM, ARCHIVE][len(sys.argv) - 1:])[:2]
    value = tree(64, None)
    ids, _ = rows_of(value)
    with tempfile.TemporaryDirectory() as folder:
        def file_in(name, text):
            path = os.path.join(folder, name)
            with open(path, "w") as out:
                out.write(text)
            return path

        def script(count):
            return file_in(str(count), "".join(json.dumps(edit) + "\n" for edit in edits(ids, count)))

        small, library = file_in("tree", json.dumps(value)), os.path.join(folder, "script")
        opens = os.path.join(folder, "opens")
        for source, built in (("script.c", library), ("opens.c", opens)):
            subprocess.run(["cc", "-O2", os.path.join(HERE, "library", source), f"-I{TOP}/include", archive, "-o", built], check=True)
        ways = {"program": [program, "edit", METRICS, small], "library": [library, METRICS, small]}
        answers = [subprocess.run([*way, script(MANY)], stdout=subprocess.PIPE, check=True).stdout for way in ways.values()]
        if answers[0] != answers[1]:
            sys.exit("the library answers otherwise than the program")
        edited = {name: lambda times, way=way: [*way, script(times)] for name, way in ways.items()}
        told("an edit, in instructions", instructions, edited, FEW, MANY)
        told("an edit, in microseconds", microseconds, edited, 1_000, 41_000)
        opened = {"opened": lambda times: [opens, FONT, QUADRATIC, str(times)],
                  "started": lambda times: [opens, FONT, QUADRATIC, str(times), "once"]}
        told("a session of the quadratic formula, in instructions", instructions, opened, 5, 25)
        told("a session of the quadratic formula, in microseconds", microseconds, opened, 100, 1_100)
        if os.path.exists(os.path.join(TOP, "libmathlay.so")):
            lines = [json.dumps(edit).encode() for edit in edits(ids, 20_000)]
            print(f"an edit through Python, in microseconds: {through_python(json.dumps(value).encode(), lines):,.1f}")


main()
