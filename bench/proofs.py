#!/usr/bin/env python3
"""Tells which parts of a crate's proof took longest in its last check from nothing.

    (cd crates/NAME && rm -rf out && rt check --jobs 1)
    python3 bench/proofs.py NAME [COUNT]

A check keeps a file of each module that it has checked, one after another: so the time of a file less that of the one before it
is what its module took. `F.Lts` is the borrow checker's part of the function F, which grows with what is dropped where F returns;
`F.Proof` is what `search` answers; `Answers` and the rest are written by hand. Seconds are of one run and one job: they say what
is dear beside what, and no more. The first module that names a library has the loading of it too.
"""

import sys
from pathlib import Path

CRATES = Path(__file__).resolve().parent.parent / "crates"


def taken(files):
    """Of files with their times, each with the seconds since the one before it, the longest first."""
    in_order = sorted(files, key=lambda file: file[1])
    steps = [(then - before, name) for (_, before), (name, then) in zip(in_order, in_order[1:])]
    return sorted(steps, reverse=True)


def module_of(path):
    """The module that a kept file is of."""
    return path.name.removesuffix(".oantt").removesuffix(".decls")


def main(words):
    if not words or not all(word.isdigit() for word in words[1:]):
        sys.exit("usage: python3 bench/proofs.py NAME [COUNT]")
    name, count = words[0], int(words[1]) if len(words) > 1 else 20
    kept = CRATES / name / "out" / "incremental"
    files = [(module_of(path), path.stat().st_mtime) for path in kept.rglob("*.oantt")]
    if not files:
        sys.exit(f"bench/proofs.py: {kept} has no kept modules: check the crate from nothing first")
    for seconds, module in taken(files)[:count]:
        print(f"{seconds:7.1f} {module}")


if __name__ == "__main__":
    main(sys.argv[1:])
