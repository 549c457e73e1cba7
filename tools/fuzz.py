#!/usr/bin/env python3
"""Compares a built program with the second engine of tools/second, over inputs that a seed decides.

    python3 tools/fuzz.py PROGRAM [--seed S] [--first I] [--count N] [--kinds a,b] [--jobs J] [--out FOLDER]
    python3 tools/fuzz.py PROGRAM --harm [--seed S] [--first I] [--count N] [--jobs J] [--out FOLDER]

Each case is some words and files, sound or hostile. Program and engine have to write the same bytes and end with the same
status. Of each case where they don't, the kind and its number are told and the first line that differs; with --out a folder of
that name gets the files, made as small as they can be made while something differs, with what both wrote. Kinds, of which all
but `long_histories` are tried where none is named: KINDS.

With --harm the program runs alone, over real files whose bytes are changed. It fails where it is stopped by a signal, where it
takes more than 2 s of processor time, and where its status isn't one of docs/FORMATS.md.

A case is decided by the seed, its kind and its number alone: with the same kinds, `--first I --count 1` makes that of the number
I again. How far it got is told on standard error each thousand cases. The last line is 'N passed, M failed', and the status is 0
where none failed, else 1.
"""

import argparse
import functools
import json
import multiprocessing
import os
import random
import shutil
import signal
import subprocess
import sys
import tempfile
import traceback
from io import BytesIO
from pathlib import Path

sys.path.insert(0, str(Path(__file__).resolve().parent))

import fuzz_inputs  # noqa: E402
from fuzz_inputs import FOLDER, KINDS, WEIGHTS, Case  # noqa: E402
from second import program as engine  # noqa: E402

STATUSES = {0, 2, 3, 4, 5, 8, 9, 10, 11}  # of docs/FORMATS.md, without a failed write and without want of memory
PATIENCE = 300  # seconds that a case may take
SLOW = 2  # seconds of processor time that count as a hang with --harm
TOLD = 1000  # cases, after which it is told how far it got
STEPS = 400  # tries to make a case smaller
WIDTH = 100  # bytes of a line that are told

# Many cases have the same metrics, which no run changes.
engine.read_metrics = functools.lru_cache(maxsize=8)(engine.read_metrics)


def main(arguments=None):
    text = __doc__.replace("KINDS", ", ".join(KINDS))
    parser = argparse.ArgumentParser(prog="fuzz", description=text, formatter_class=argparse.RawDescriptionHelpFormatter)
    parser.add_argument("program", metavar="PROGRAM", help="the built program")
    parser.add_argument("--seed", type=int, default=1, help="decides all cases (here %(default)s)")
    parser.add_argument("--first", type=int, default=0, help="the number of the first case (here %(default)s)")
    parser.add_argument("--count", type=int, default=1000, help="how many cases (here %(default)s)")
    parser.add_argument("--kinds", help="the kinds of cases, with commas between")
    parser.add_argument("--jobs", type=int, default=len(os.sched_getaffinity(0)), help="how many run at a time (here %(default)s)")
    parser.add_argument("--out", type=Path, help="a folder for the cases that failed")
    parser.add_argument("--harm", action="store_true", help="run the program alone over changed bytes")
    words = parser.parse_args(arguments)
    if not os.access(words.program, os.X_OK):
        parser.error(f"{words.program} is no program")
    kinds = words.kinds.split(",") if words.kinds else [kind for kind in KINDS if WEIGHTS[kind]]
    unknown = [kind for kind in kinds if kind not in KINDS]
    if unknown:
        parser.error(f"no kind {unknown[0]}: there are {', '.join(KINDS)}")
    if words.harm:
        kinds = ["harm"]
    return run(words, kinds)


def run(words, kinds):
    """Runs all cases, tells what failed, and counts."""
    order = [kind for kind in kinds for _ in range(WEIGHTS.get(kind) or 1)]
    numbers = range(words.first, words.first + words.count)
    jobs = [(words.program, words.seed, order[number % len(order)], number) for number in numbers]
    failed = 0
    with multiprocessing.Pool(max(words.jobs, 1)) as pool:
        for job, fault in zip(jobs, pool.imap(fault_of_job, jobs, chunksize=8)):
            done = job[3] - words.first
            if done and done % TOLD == 0:
                print(f"{done} of {words.count}, {failed} failed", file=sys.stderr, flush=True)
            if fault:
                failed += 1
                print(f"{job[2]} {job[3]} (seed {job[1]}): {fault[0]}", flush=True)
                if words.out:
                    keep(fault[1], words.out / f"{job[2]}-{job[1]}-{job[3]}", words.program)
    print(f"{words.count - failed} passed, {failed} failed")
    return int(failed > 0)


def case_of(seed, kind, number):
    """The case that a seed, a kind and a number decide."""
    source = random.Random(f"{seed} {kind} {number}")
    return harmful(source) if kind == "harm" else KINDS[kind](source)


def fault_of_job(job):
    """What is wrong with a case, and the case made small; or None."""
    path, seed, kind, number = job
    case = case_of(seed, kind, number)
    if kind == "harm":
        fault = harm_of(path, case)
        return fault and (fault, case)
    if not difference(path, case):
        return None
    case = smaller(path, case)
    return difference(path, case), case


# ---- one case


def difference(path, case):
    """How program and engine differ, in a line, or None."""
    theirs, ours = run_program(path, case), run_engine(case)
    if theirs == ours:
        return None
    if theirs[0] != ours[0]:
        return f"status {theirs[0]}, and the engine's {ours[0]}: {first_line(theirs[1], 0)} / {first_line(ours[1], 0)}"
    lines = [output[1].split(b"\n") for output in (theirs, ours)]
    row = next((row for row, (one, other) in enumerate(zip(*lines)) if one != other), min(map(len, lines)))
    return f"line {row + 1}: {first_line(theirs[1], row)}, and the engine's {first_line(ours[1], row)}"


def first_line(content, row):
    line = (content.split(b"\n") + [b""] * (row + 1))[row]
    return repr(line[:WIDTH].decode("utf-8", "replace"))


def run_program(path, case, before=()):
    """The status and the bytes of the built program; a status below 0 is a signal, and None is no end.

    Words may stand before the program, those of a command that runs it.
    """
    with tempfile.TemporaryDirectory(prefix="fuzz-") as room:
        write_files(Path(room), case)
        words = [*before, os.path.abspath(path), *case.words]
        try:
            ran = subprocess.run(words, cwd=room, stdin=subprocess.DEVNULL, capture_output=True, timeout=PATIENCE)
        except subprocess.TimeoutExpired:
            return None, b""
    return ran.returncode, ran.stdout + ran.stderr


def write_files(room, case):
    for name, content in case.files.items():
        if content is FOLDER:
            (room / name).mkdir(parents=True)
        else:
            (room / name).write_bytes(content)


class Files:
    """The files of a case, in memory."""

    def __init__(self, files):
        self.files = files

    def open(self, name):
        content = self.files.get(os.path.normpath(name) if name else name, FOLDER)
        if content is FOLDER:
            raise OSError(name)
        return BytesIO(content)


def run_engine(case):
    """The status and the bytes of the second engine; where it breaks, the trace in place of the bytes."""
    written = []
    try:
        return engine.run(case.words, Files(case.files), written.append), b"".join(written)
    except Exception:
        return None, traceback.format_exc().encode()


# ---- harm


def harmful(source):
    """Real files, of which some have changed bytes."""
    files = {"m": fuzz_inputs.REAL["metrics"][0], "t": source.choice(fuzz_inputs.REAL["tree"]), "s": source.choice(fuzz_inputs.REAL["script"])}
    if source.random() < 0.15:
        files["m"] = fuzz_inputs.REAL["font"]
    for name in source.sample("mtts", source.choice([1, 1, 2])):
        for _ in range(source.choice([1, 1, 4])):
            files[name] = fuzz_inputs.changed(source, files[name], [*files.values()])
    words = source.choice([["layout", "m", "t"], ["check", "m", "t"], ["edit", "m", "t", "s"]])
    return Case(words, files)


def harm_of(path, case):
    """What is wrong with how the program ended, or None."""
    status = run_program(path, case, before=["sh", "-c", f'ulimit -t {SLOW}; exec "$0" "$@"'])[0]
    if status in (None, -signal.SIGXCPU, -signal.SIGKILL):
        return f"took longer than {SLOW} s"
    if status < 0:
        return f"stopped by signal {-status}"
    return None if status in STATUSES else f"ended with status {status}"


# ---- smaller cases


def smaller(path, case):
    """The case with as much left out as can be while something differs."""
    tries = iter(range(STEPS))
    return smaller_case(case, lambda other: next(tries, None) is not None and difference(path, other) is not None)


def smaller_case(case, differs):
    """The script is made smaller first, then the others."""
    for name in sorted(case.files, key=lambda name: name != "s"):
        if case.files[name] is not FOLDER:
            case = smaller_file(case, name, differs)
    return case


def smaller_file(case, name, differs):
    """One of the files made smaller: a tree by its elements, any other file by its lines."""

    def with_content(content):
        return Case(case.words, {**case.files, name: content})

    if name == "t":
        content = smaller_tree(case.files[name], lambda content: differs(with_content(content)))
    else:
        lines = case.files[name].split(b"\n")
        content = b"\n".join(fewer(lines, lambda lines: differs(with_content(b"\n".join(lines)))))
    return with_content(content)


def fewer(items, differs):
    """A list without the items that may be left out."""
    step = max(len(items) // 2, 1)
    while True:
        place = 0
        while place < len(items):
            less = items[:place] + items[place + step :]
            if differs(less):
                items = less
            else:
                place += step
        if step == 1:
            return items
        step //= 2


def smaller_tree(content, differs):
    """A tree's text without the children and attributes that may be left out; a text that is no JSON stays."""
    try:
        root = json.loads(content)
        waiting = [root]
    except ValueError:
        return content

    def still(_=None):
        return differs(json.dumps(root, ensure_ascii=False).encode("utf-8", "surrogatepass"))

    if not still():
        return content
    while waiting:
        each = waiting.pop(0)
        if not isinstance(each, dict):
            continue
        for key in ("children", "attributes"):
            if isinstance(each.get(key), (list, dict)):
                each[key] = without_some(each, key, still)
        waiting += each["children"] if isinstance(each.get("children"), list) else []
    return json.dumps(root, ensure_ascii=False).encode("utf-8", "surrogatepass")


def without_some(parent, key, still):
    """What stands under a key, without what may be left out."""
    for place in reversed(list(parent[key]) if isinstance(parent[key], dict) else range(len(parent[key]))):
        before = parent[key]
        parent[key] = before.copy()
        del parent[key][place]
        if not still():
            parent[key] = before
    return parent[key]


def keep(case, folder, path):
    """Writes the files of a case, and what both engines make of it."""
    shutil.rmtree(folder, ignore_errors=True)
    folder.mkdir(parents=True)
    write_files(folder, case)
    (folder / "words").write_text(" ".join(case.words) + "\n", encoding="utf-8", errors="replace")
    for name, (status, content) in (("program", run_program(path, case)), ("engine", run_engine(case))):
        (folder / f"{name}.out").write_bytes(content)
        (folder / f"{name}.status").write_text(f"{status}\n")


if __name__ == "__main__":
    sys.exit(main())
