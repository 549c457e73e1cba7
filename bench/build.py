#!/usr/bin/env python3
"""Builds the program without a proof, for instructions that come near those of the proved one: `bench/instructions.py` then
compares two states of the code before either is proved.

    python3 bench/build.py OUT [REPOSITORY]

OUT is the file to write, and REPOSITORY the clone that is built, or this one. `rt try` compiles a program with checks of overflow,
of indices and of memory; here they are taken out of what LLVM is given, which is then optimized as `rt run` does. What is built so
stops at nothing, and is for counting alone. It takes some 100 seconds, needs the kit's `rt` and leaves no other file. On
2026-11-30 it counted 3 % more than the proved program: 77,226 for an edit of 833 elements (75,111), 805 million for a layout (782).
"""
import json
import os
import re
import shutil
import subprocess
import sys
import tempfile
from pathlib import Path

HERE = Path(__file__).resolve().parent
sys.path.insert(0, str(HERE.parent / "tools"))
import quick  # noqa: E402

# What checks a build that isn't proved: a call, or a branch to a trap.
CHECK = r'  call void @"rattle-llvm-checks::[A-Za-z]+"\(i8 [^)]*\)\n'
TRAP = "  call void @llvm.trap()\n"
SANITIZER = "-fsanitize=address"
MODULE = "module.bc"

# What stands in the place of a tool of the kit: this file, with the tool's name and words.
CALL = """#!/bin/sh
exec {python} {here} --as {tool} {real} {room} "$@"
"""


def main():
    if sys.argv[1:2] == ["--as"]:
        tool, real, room = sys.argv[2:5]
        return {"clang": compile_module, "ld.lld": note_link}[tool](real, Path(room), sys.argv[5:])
    if not 2 <= len(sys.argv) <= 3:
        sys.exit(__doc__)
    out = Path(sys.argv[1]).resolve()
    top = Path(sys.argv[2] if len(sys.argv) == 3 else HERE.parent).resolve()
    kit = Path(os.path.realpath(shutil.which("rt") or sys.exit("build: there is no rt in PATH"))).parent.parent
    with tempfile.TemporaryDirectory(prefix="build-") as folder:
        room = Path(folder)
        tool = kit_of(kit, room)
        run = subprocess.run([tool, "try", *quick.LIMITS, "--"], cwd=top / "crates" / "mathlay",
                             stdout=subprocess.PIPE, stderr=subprocess.STDOUT, text=True, check=False)
        if not (room / "linked").exists():
            sys.exit(run.stdout)
        subprocess.run(words_of_link(kit, room, out), check=True)
    return None


def kit_of(kit, room):
    """Makes a folder of links to the kit in which clang and the linker are others, and gives its `rt`."""
    tool = quick.optimizing(kit, room)
    for name in ("clang", "ld.lld"):
        path = room / "toolchain" / "bin" / name
        path.unlink()
        real = kit / "toolchain" / "bin" / name
        quick.script(path, CALL.format(python=sys.executable, here=Path(__file__).resolve(), tool=name, real=real, room=room))
    return tool


def compile_module(real, _, words):
    """Compiles a module; that of the program without its checks, and optimized."""
    if MODULE in words and SANITIZER in words:
        printed = [real, "--no-default-config", "-S", "-emit-llvm", "-Xclang", "-disable-llvm-passes"]
        subprocess.run([*printed, "-x", "ir", MODULE, "-o", "module.ll"], check=True)
        path = Path("module.ll")
        path.write_text(re.sub(CHECK, "", path.read_text()).replace(TRAP, "").replace(" sanitize_address", ""))
        others = {MODULE: str(path), "-O0": "-O3"}
        words = [others.get(word, word) for word in words if word != SANITIZER]
    os.execv(real, [real, *words])


def note_link(real, room, words):
    """Keeps what is linked, and links it as asked."""
    kept = room / "linked"
    kept.mkdir(exist_ok=True)
    for place, word in enumerate(words):
        if os.path.isfile(word) and words[place - 1] != "-o":
            shutil.copy(word, kept / f"{place}")
    (kept / "words").write_text(json.dumps(words))
    os.execv(real, [real, *words])


def words_of_link(kit, room, out):
    """The words that link the program without the sanitizer, which stands between the words of a whole archive."""
    kept = room / "linked"
    words = json.loads((kept / "words").read_text())
    found, within = [str(kit / "toolchain" / "bin" / "ld.lld")], False
    for place, word in enumerate(words):
        if word.endswith("whole-archive"):
            within = word == "--whole-archive"
        elif within:
            continue
        elif words[place - 1] == "-o":
            found.append(str(out))
        elif (kept / str(place)).exists() and not words[place - 1].endswith("dynamic-linker"):
            found.append(str(kept / str(place)))
        else:
            found.append(word)
    return found


if __name__ == "__main__":
    main()
