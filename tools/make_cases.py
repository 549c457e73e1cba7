#!/usr/bin/env python3
"""Writes what must come of each case: crates/NAME/stdout of crates/NAME/stdin, for each program of cases.

    python3 tools/make_cases.py [--check | --diff] [NAME..]

The expected values aren't the product's: they come from the second engine (second/), which was written from the documents
without a look at the product, and from small models of inputs and sinks in memory (cases/runs.py) and of the system's files and
outputs (cases/adapters.py).
A program of cases sees the files of its own folder data/ alone. So fonts are written in crates/run_cases/data and copied
from there into the data/ of each program that loads them, and the formulas of samples/ with their font and a script are
copied from there.
With --check nothing is written: of each stored file that differs the first line that does is told, and the status is 1.
With --diff nothing is written either, and all that would change is told case by case: the case's own line, and below it `-`
before each line as it is stored and `+` before each as it would be. With a NAME only that program's files are made.
"""

import argparse
import sys
from pathlib import Path

from cases import kinds
from cases.changes import changes
from cases.faults import UNKNOWN_KIND, LineFault, Undetermined
from cases.source import Known, take_line
from cases.values import value_of

CRATES = Path(__file__).resolve().parent.parent / "crates"
# The files that programs load and that are written by hand somewhere else, each with its folder.
TOP = CRATES.parent
OWNERS = {
    name + ".metrics": CRATES / "run_cases" / "data" for name in ("sample", "mix", "below", "most", "least", "bare")} | {
    path.name: path.parent for path in (TOP / "samples").iterdir() if path.suffix in (".json", ".metrics", ".script")}


# How much of a line that changes is told.
WIDTH = 300


class Parser(argparse.ArgumentParser):
    """Tells of wrong words in one line."""

    def error(self, message):
        self.exit(2, f"make_cases: {message}\n")


def main(argv=None):
    parser = Parser(description=__doc__, formatter_class=argparse.RawDescriptionHelpFormatter)
    parser.add_argument("names", metavar="NAME", nargs="*", help=f"a program of cases: {', '.join(kinds.PROGRAMS)}")
    how = parser.add_mutually_exclusive_group()
    how.add_argument("--check", dest="keep", action="store_const", const=check, help="tell the first line that differs")
    how.add_argument("--diff", dest="keep", action="store_const", const=show, help="tell all that would change, case by case")
    words = parser.parse_args(argv)
    unknown = [name for name in words.names if name not in kinds.PROGRAMS]
    if unknown:
        parser.error(f"no program {unknown[0]}: there are {', '.join(kinds.PROGRAMS)}")
    keep = words.keep or write
    try:
        differing = [keep(path, content) for path, content in made_files(words.names or kinds.PROGRAMS)]
        return int(any(differing))
    except Undetermined as fault:
        parser.error(str(fault))
    except OSError as fault:
        parser.error(f"{fault.filename}: {fault.strerror}")


def made_files(names):
    """Each file that is made, with its content: the copies first, since the cases behind them load these."""
    for name in names:
        for file in loaded_files(name):
            owner, here = OWNERS.get(file), CRATES / name / "data"
            if owner not in (None, here):
                yield here / file, (owner / file).read_bytes()
    for name in names:
        yield CRATES / name / "stdout", outcome_of(name)


def loaded_files(name):
    """The names of the files that the cases of a program load."""
    lines = (CRATES / name / "stdin").read_text(encoding="utf-8", errors="replace").split("\n")
    return sorted({line.removeprefix("load ") for line in lines if line.startswith("load ")})


def outcome_of(name):
    """The whole output of a program for its whole input."""
    known = Known(CRATES / name / "data")
    lines = (CRATES / name / "stdin").read_bytes().split(b"\n")
    if lines[-1] == b"":
        lines.pop()
    out = []
    for number, line in enumerate(lines, 1):
        try:
            case = take_line(known, line)
            if case is not None:
                out += [line, *answer_to(kinds.PROGRAMS[name], known, *case)]
        except LineFault as fault:
            out.append(b"line %d: %s" % (number, str(fault).encode()))
        except Undetermined as fault:
            raise Undetermined(f"{name}, line {number}: {fault}") from None
    return kinds.PROGRAMS[name].before(CRATES / name / "data") + b"".join(line + b"\n" for line in out)


def answer_to(program, known, kind, text):
    """The lines of what comes of a case."""
    value = value_of(text)
    if kind in program.runs:
        return program.runs[kind](known, value)
    if kind in program.one_answer:
        return [b"= " + program.one_answer[kind](known, value).encode()]
    raise LineFault(UNKNOWN_KIND)


def write(path, content):
    """Stores a file, which then doesn't differ."""
    path.parent.mkdir(exist_ok=True)
    path.write_bytes(content)
    return False


def check(path, content):
    """Tells the first line in which a stored file differs, and whether it does."""
    stored = path.read_bytes() if path.exists() else b""
    if stored == content:
        return False
    theirs, ours = stored.split(b"\n"), content.split(b"\n")
    place = next((n for n, (a, b) in enumerate(zip(theirs, ours)) if a != b), min(len(theirs), len(ours)))
    here = [lines[place].decode("utf-8", "replace") if place < len(lines) else "nothing" for lines in (theirs, ours)]
    print(f"{path.relative_to(CRATES)}, line {place + 1}: has {here[0]!r}, expected {here[1]!r}")
    return True


def show(path, content):
    """Tells all that changes in a stored file, case by case, and whether something does; lines that are long are cut."""
    stored = path.read_bytes() if path.exists() else b""
    if stored == content:
        return False
    place = path.relative_to(CRATES)
    print(f"--- {place}, stored\n+++ {place}, expected")
    for line in changes(*(each.decode("utf-8", "replace").split("\n") for each in (stored, content))):
        print(line if len(line) <= WIDTH else line[:WIDTH] + "...")
    return True


if __name__ == "__main__":
    sys.exit(main())
