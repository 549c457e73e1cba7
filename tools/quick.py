#!/usr/bin/env python3
"""The quick run: compiles and runs every program, and compares what it writes with what is stored. Nothing is proved.

    python3 tools/quick.py [--jobs N] [--checked] [NAME..]

A program is a crate of crates.txt with a src/main.rt. `rt try` compiles it as it stands, with all the libraries below it, and
runs it with the files beside its src/: standard input from `stdin`, words from `args`, and the files of `data/` in its
folder. It has to write what `stdout` has, byte for byte, and to end with the number in `status`, as `rt ci` asks of the proved
program. A crate that crates.txt names and that isn't there fails, and so does a program that crates.txt doesn't name. Last
come the tests of the tools. With a NAME, only the programs of these names are run.

As many run at a time as there are processors, or N; each needs up to 1.5 GB of memory. Of what differs the first line that
does is told. The last line is 'N passed, M failed', which counts each program as one, and the tests of the tools as one; the
status is 0 where none failed, else 1. It needs the kit's `rt`, and leaves no file.

`rt try` by itself optimizes nothing and checks each access of memory, and a program may then run for more than six minutes. So
it is called in a folder of links to the kit, where clang is called with other words: the program is optimized, and its
accesses of memory aren't checked. Overflows, indices and the like still are. --checked calls `rt try` as it is, which also
tells the place at which a program stopped.
"""

import argparse
import os
import re
import shlex
import shutil
import signal
import subprocess
import sys
import tempfile
import time
from pathlib import Path

TOP = Path(__file__).resolve().parent.parent
CRATES = TOP / "crates"
# `rt try` runs a program twice. Its interpreter, which can't read files, gives up after one step; the compiled run may take so
# many seconds.
LIMITS = ["--steps", "1", "--seconds", "1800"]
# The last line of `rt try` where the program ended by itself.
ENDED = re.compile(r"^run=ended status=(\d+) .*\n\Z", re.MULTILINE)
# How many of the last lines of a run that failed are told; and of a line that differs, how many bytes, and how many of them
# stand before the difference.
LINES, WIDTH, BEFORE = 20, 120, 40

# While this is set in the environment, the tests of the tools prove nothing.
NO_PROOF = "MATHLAY_NO_PROOF"

# What stands in the place of clang: the same words, but for how far it optimizes and what it checks.
CLANG = """#!/bin/sh
for word; do
    shift
    case $word in
        -O0) set -- "$@" -O1 ;;
        -fsanitize=address) ;;
        *) set -- "$@" "$word" ;;
    esac
done
exec {} "$@"
"""
# What stands in the place of the prover, which `rt try` asks beside the run whether a name is one that a check refuses.
PROVER = "#!/bin/sh\nexit 1\n"


def main():
    parser = argparse.ArgumentParser(prog="quick", description=__doc__, formatter_class=argparse.RawDescriptionHelpFormatter)
    parser.add_argument("names", metavar="NAME", nargs="*", help="a program; where left out, all and the tests of the tools")
    parser.add_argument("--jobs", metavar="N", type=int, default=processors(), help="how many run at a time (here %(default)s)")
    parser.add_argument("--checked", action="store_true", help="call rt try as it is, which takes much longer")
    words = parser.parse_args()
    signal.signal(signal.SIGTERM, lambda number, _: sys.exit(128 + number))
    names = program_names()
    if not names:
        parser.error("crates.txt names no program")
    unknown = [name for name in words.names if name not in names]
    if unknown:
        parser.error(f"no program {unknown[0]}: there are {', '.join(names)}")
    kit = shutil.which("rt")
    if not kit:
        parser.error("there is no rt: the kit's folder bin/ has to be in PATH")
    with tempfile.TemporaryDirectory(prefix="quick-") as room:
        tool = kit if words.checked else optimizing(Path(os.path.realpath(kit)).parent.parent, Path(room))
        programs = [Program(name, tool) for name in words.names or names]
        if words.names:
            return run(programs, [], words.jobs)
        return run([*programs, ToolTests()], lost_crates(), words.jobs)


def optimizing(kit, room):
    """Makes the folder of links to the kit, and gives its `rt`. That finds its kit by its own place, so it is a copy."""
    link(kit, room, ["bin", "toolchain"])
    link(kit / "bin", room / "bin", ["rt", "rtlib.py", "rattle"])
    link(kit / "toolchain", room / "toolchain", ["bin"])
    link(kit / "toolchain" / "bin", room / "toolchain" / "bin", ["clang"])
    for name in ("rt", "rtlib.py"):
        shutil.copy(str(kit / "bin" / name), str(room / "bin" / name))
    script(room / "bin" / "rattle", PROVER)
    script(room / "toolchain" / "bin" / "clang", CLANG.format(shlex.quote(str(kit / "toolchain" / "bin" / "clang"))))
    return str(room / "bin" / "rt")


def link(source, folder, but):
    """Links each file and folder of a folder into another, but for some."""
    folder.mkdir(exist_ok=True)
    for path in source.iterdir():
        if path.name not in but:
            (folder / path.name).symlink_to(path)


def script(path, text):
    path.write_text(text)
    path.chmod(0o755)


def processors():
    """How many processors this process may use."""
    return len(os.sched_getaffinity(0))


def crates_named():
    """The crates of crates.txt, each with the libraries that it uses."""
    rows = (row.partition("#")[0].strip() for row in (TOP / "crates.txt").read_text(encoding="utf-8").split("\n"))
    return {re.split(r"[\s:]", row)[0]: re.split(r"[\s,]+", row.partition(":")[2].strip()) for row in rows if row}


def program_names():
    """The names of the programs, the ones that take longest first: those that stand on the most crates, then the longest
    input."""
    crates = crates_named()
    names = [name for name in crates if (CRATES / name / "src" / "main.rt").is_file()]
    return sorted(names, key=lambda name: (len(below(crates, name)), len(stored(name, "stdin"))), reverse=True)


def below(crates, name):
    """A crate and all that it stands on."""
    found, waiting = set(), [name]
    while waiting:
        each = waiting.pop()
        if each not in found:
            found.add(each)
            waiting += crates.get(each, [])
    return found


def lost_crates():
    """What crates.txt and the folder crates/ don't agree on, a line each."""
    named = crates_named()
    there = sorted(path.parent.name for path in CRATES.glob("*/src"))
    programs = [name for name in there if (CRATES / name / "src" / "main.rt").is_file()]
    lost = [f"{name}: crates.txt names it, and there is no crates/{name}/src" for name in named if name not in there]
    return lost + [f"{name}: a program that crates.txt doesn't name" for name in programs if name not in named]


def stored(name, file):
    """The bytes of a file beside the src/ of a crate: none where it isn't there."""
    path = CRATES / name / file
    return path.read_bytes() if path.is_file() else b""


def run(checks, lost, jobs):
    """Runs all, tells what came of each, and counts."""
    began = time.monotonic()
    print("".join(line + "\n" for line in lost), end="", flush=True)
    failed = len(lost)
    for check in side_by_side(checks, max(jobs, 1)):
        faults = check.faults()
        failed += bool(faults)
        print("\n    ".join(faults or [check.praise()]), flush=True)
    used = os.times()
    print(f"in {time.monotonic() - began:.0f} s, with {used.children_user + used.children_system:.0f} s of processor time")
    print(f"{len(checks) + len(lost) - failed} passed, {failed} failed")
    return int(failed > 0)


def side_by_side(checks, jobs):
    """Runs so many at a time, and yields each when it has ended."""
    waiting, running = list(checks), []
    try:
        while waiting or running:
            running += [waiting.pop(0).start() for _ in range(min(jobs - len(running), len(waiting)))]
            time.sleep(0.1)
            ended = [check for check in running if check.has_ended()]
            running = [check for check in running if check not in ended]
            yield from ended
    finally:
        for check in running:
            check.stop()


class Check:
    """A command that is run, and judged when it has ended."""

    def __init__(self, name, words, folder, given=os.devnull, **environment):
        self.name, self.words, self.folder, self.given = name, words, folder, given
        self.environment = {**os.environ, **environment}

    def start(self):
        self.began = time.monotonic()
        self.out, self.errors = tempfile.TemporaryFile(), tempfile.TemporaryFile()
        with open(self.given, "rb") as given:
            self.child = subprocess.Popen(
                self.words, cwd=self.folder, env=self.environment, stdin=given, stdout=self.out, stderr=self.errors)
        return self

    def has_ended(self):
        if self.child.poll() is None:
            return False
        self.seconds = time.monotonic() - self.began
        self.written, self.told = content(self.out), content(self.errors).decode("utf-8", "replace")
        return True

    def stop(self):
        """Ends it before its time; `rt` then removes what it made."""
        self.child.terminate()
        self.child.wait()
        self.out.close()
        self.errors.close()


class Program(Check):
    """A program on its stored files."""

    def __init__(self, name, tool):
        folder = CRATES / name
        words = [tool, "try", *LIMITS]
        for path in sorted((folder / "data").rglob("*")):
            if path.is_file():
                words += ["--data", f"{path.relative_to(folder / 'data')}={path}"]
        words += ["--", *os.fsdecode(stored(name, "args")).splitlines()]
        given = folder / "stdin"
        super().__init__(name, words, folder, given if given.is_file() else os.devnull)

    def faults(self):
        """What isn't as it is stored, a line each."""
        ended = ENDED.search(self.told)
        if not ended:
            return [f"{self.name}: no answer:", *self.told.splitlines()[-LINES:]]
        faults = difference(stored(self.name, "stdout"), self.written)
        wanted = int(stored(self.name, "status") or 0)
        if int(ended[1]) != wanted:
            faults.append(f"ended with status {ended[1]}, and has to with {wanted}")
        return [f"{self.name}: differs:", *faults] if faults else []

    def praise(self):
        lines = stored(self.name, "stdout").count(b"\n")
        return f"{self.name}: {lines} line{'s' * (lines != 1)} as stored, in {self.seconds:.0f} s"


class ToolTests(Check):
    """The tests of the tools, by a Python that has fontTools where there is one."""

    def __init__(self):
        super().__init__("the tests of the tools", [python(), "-B", "-m", "tests"], TOP / "tools", **{NO_PROOF: "1"})

    def faults(self):
        if self.child.returncode == 0:
            return []
        return [f"{self.name}: failed:", *self.told.splitlines()[-LINES:], *self.lines()[-LINES:]]

    def praise(self):
        return self.lines()[-1]

    def lines(self):
        return self.written.decode("utf-8", "replace").splitlines()


def python():
    """The first Python that has fontTools, or else the one that runs this."""
    found = [each for each in (sys.executable, "/usr/bin/python3") if os.access(each, os.X_OK)]
    able = (each for each in found if not subprocess.call([each, "-c", "import fontTools"], stderr=subprocess.DEVNULL))
    return next(able, sys.executable)


def content(file):
    """All bytes of a temporary file, which is closed."""
    with file:
        file.seek(0)
        return file.read()


def difference(wanted, written):
    """The first line in which two outputs differ, if one does, from a little before the place."""
    if wanted == written:
        return []
    lines = [output.split(b"\n") for output in (wanted, written)]
    row = first_difference(*lines)
    theirs, ours = (each[row] if row < len(each) else None for each in lines)
    place = max(first_difference(theirs or b"", ours or b"") - BEFORE, 0)
    return [f"line {row + 1} of its stdout: {shown(theirs, place)}", f"line {row + 1} that it wrote: {shown(ours, place)}"]


def first_difference(one, other):
    """The place of the first difference of two rows, which is the end of the shorter one where that begins the other."""
    return next((n for n, (a, b) in enumerate(zip(one, other)) if a != b), min(len(one), len(other)))


def shown(line, place):
    """A line as it is told, from a place on, and cut where it is long."""
    if line is None:
        return "no such line"
    cut = line[place:place + WIDTH].decode("utf-8", "replace")
    return "..." * (place > 0) + repr(cut) + "..." * (len(line) > place + WIDTH)


if __name__ == "__main__":
    sys.exit(main())
