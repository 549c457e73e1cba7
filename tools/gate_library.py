#!/usr/bin/env python3
"""Makes libmathlay.a and libmathlay.so over the libraries that `rt ci` has proved: `rt ci`, then this, at the top.

    python3 tools/gate_library.py

`rt ci` builds no static library, and `rt lib` would prove all crates below once more, since it takes nothing of what the gate
proved. So `rattle build` is called here as `rt lib` calls it, with the libraries that the gate left in each crate's folder out/. Only
the exports, the crate `embed_c`, are proved once more. What was made of just these libraries and exports before is kept. The last
line says what came of it; the status is 0 where both are there, 1 where `embed_c` was refused, and 2 where something was in the way.
tests/test_library.py does the same by itself, in a clone where `rt ci` alone has built anything.
"""

import hashlib
import os
import shutil
import signal
import subprocess
import sys
import time
from pathlib import Path

import quick

TOP = quick.TOP
NAME = "embed_c"
COMMANDS = ("rt", "make", "ar", "cc")
SECONDS = 600
MADE, REFUSED, HINDERED = 0, 1, 2
LINES = 20


def main():
    status, told = make()
    print(f"gate_library: {told}", file=sys.stderr if status else sys.stdout)
    return status


def make():
    """Finds or makes both, and gives the status and what is to be told."""
    began = time.monotonic()
    lost = [name for name in COMMANDS if not shutil.which(name)]
    if lost:
        return HINDERED, f"{', '.join(lost)}: not in PATH, and needed to make the library"
    lost = [name for name, library in libraries().items() if not (library / "format").is_file()]
    if lost:
        return HINDERED, f"{', '.join(lost)}: not built by `rt ci`"
    kit = Path(os.path.realpath(shutil.which("rt"))).parent.parent
    wanted, note = sum_of(kit), TOP / "build" / "made_of"
    files = [TOP / "libmathlay.a", TOP / "libmathlay.so"]
    if all(file.is_file() for file in files) and note.is_file() and note.read_text(encoding="utf-8") == wanted + sum_of_files(files):
        return MADE, "the library that was made of the same before"
    status, told = build(kit)
    if status:
        return status, told
    note.parent.mkdir(exist_ok=True)
    note.write_text(wanted + sum_of_files(files), encoding="utf-8")
    return MADE, f"made in {time.monotonic() - began:.0f} s"


def build(kit):
    """Proves the exports, and makes both libraries of them."""
    folder = TOP / "crates" / NAME
    (folder / "out").mkdir(exist_ok=True)
    status, told = within(SECONDS, words(kit), folder)
    if status:
        return REFUSED if status == 1 else HINDERED, f"{NAME} isn't built: status {status}\n{told}"
    status, told = within(SECONDS, ["make", "-s", "archive"], TOP)
    return (HINDERED, f"`make archive` ended with status {status}\n{told}") if status else (MADE, told)


def is_behind_the_gate():
    """Whether `rt ci` has built all libraries below, and no other command has: a library of theirs has a stamp beside it."""
    found = libraries().values()
    return bool(found) and all((library / "format").is_file() and not (library.parent / "stamp").exists() for library in found)


def libraries():
    """The repository's own libraries below, each with where `rt ci` leaves it."""
    crates = quick.crates_named()
    return {name: TOP / "crates" / name / "out" / "rlib" / f"{name}.rlib"
            for name in sorted(quick.below(crates, NAME) - {NAME}) if name in crates}


def sum_of(kit):
    """A sum of all that the library is made of. A library's file `format` has the sum of its other files."""
    exports = sorted(path for part in ("src", "specs", "proofs") for path in (TOP / "crates" / NAME / part).rglob("*") if path.is_file())
    kept = [library / "format" for library in libraries().values()]
    return sum_of_files([*kept, *exports, TOP / "crates.txt", TOP / "Makefile", TOP / "include" / "mathlay.map", kit / "KIT-ID"])


def sum_of_files(files):
    """A sum of files: where each stands, and its bytes. One that isn't there counts as empty."""
    found = hashlib.sha256()
    for file in files:
        found.update(repr((os.path.relpath(file, TOP), file.read_bytes() if file.is_file() else b"")).encode())
    return found.hexdigest()


def words(kit):
    """The words by which `rt lib` builds a static library, but for the work that it keeps."""
    ours, kits = libraries(), kit / "rlibs"
    uses = {"std": kits / "std.rlib"}
    uses.update({name: ours.get(name, kits / f"{name}.rlib") for name in quick.crates_named()[NAME] if name})
    found = [word for name, library in uses.items() for word in ("--extern", f"{name}={library}")]
    for folder in [kits, *(library.parent for library in ours.values())]:
        found += ["-L", f"dependency={folder}"]
    return [
        str(kit / "bin" / "rattle"), "build", "--crate-name", NAME, "src/lib.rt", *found,
        "--antt-project", str(kit / "rattle" / "logic" / "antt-project.json"), "--logic-built", str(kit / "logic_built"),
        "--jobs", str(min(4, quick.processors())), "--links", f"{NAME}=", "--crate-type", "staticlib",
        "--toolchain", str(kit / "toolchain"), "--backend", "llvm", "-o", f"out/lib{NAME}.a",
    ]


def within(seconds, command, folder):
    """Runs a command with all that it starts, at most so long: its status, and the end of what it said."""
    running = subprocess.Popen(command, cwd=folder, stdin=subprocess.DEVNULL, stdout=subprocess.PIPE,
                               stderr=subprocess.STDOUT, start_new_session=True)
    try:
        said, _ = running.communicate(timeout=seconds)
    except BaseException as ending:
        os.killpg(running.pid, signal.SIGKILL)
        running.communicate()
        if isinstance(ending, subprocess.TimeoutExpired):
            return HINDERED, f"stopped after {seconds} s"
        raise
    return running.returncode, "\n".join(said.decode("utf-8", "replace").splitlines()[-LINES:])


if __name__ == "__main__":
    sys.exit(main())
