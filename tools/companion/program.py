"""The program `mathlay`: where it is, how it is run, and what is said where it refuses."""

import os
import shlex
import shutil
import subprocess
from dataclasses import dataclass, field
from pathlib import Path

from companion import command, refusals
from companion.command import Fault

TOP = Path(__file__).resolve().parent.parent.parent
BUILT = TOP / "crates" / "mathlay" / "out" / "mathlay"
INSTALLED = TOP.parent.parent / "bin" / "mathlay"
SECONDS = 600
HELP = "run COMMAND in place of the built program"


def command_of(given):
    """The words of the program to run: those given, or the built or the installed one; raises a Fault."""
    if given is None:
        found = next((str(path) for path in (BUILT, INSTALLED) if path.is_file()), None) or shutil.which("mathlay")
        if not found:
            raise Fault(f"{BUILT} isn't there, and no `mathlay` is in PATH: build it by `rt run` in crates/mathlay, or name another "
                        "program by --program")
        return [found]
    try:
        words = shlex.split(given)
    except ValueError as fault:
        raise Fault(f"--program: {fault}") from None
    if not words:
        raise Fault("--program: names no program")
    return words


@dataclass
class Inputs:
    """The files of a run, and the names under which they are told; `place` gives the place of an element by its id, where the
    tree was made of something else."""

    metrics: str
    tree: str
    script: str | None = None
    told: str | None = None
    place: object = field(default=None)

    @property
    def formula(self):
        return self.told or self.tree


def run(program, verb, inputs):
    """What the program writes; raises a Fault where it ends with another status than 0."""
    words = [*program, verb, inputs.metrics, inputs.tree, *filter(None, [inputs.script])]
    done = ended(words, inputs.formula)
    written = done.stdout.decode("utf-8", "replace")
    if done.returncode != 0:
        raise Fault(refusals.ending(done.returncode, written, done.stderr.decode("utf-8", "replace"), inputs))
    return written


def ended(words, formula):
    """A run of the program that has ended; raises a Fault where it can't be run, or doesn't end."""
    try:
        return subprocess.run(words, stdin=subprocess.DEVNULL, capture_output=True, timeout=SECONDS)
    except (OSError, ValueError) as fault:
        raise Fault(f"{words[0]}: {command.reason(fault)}") from None
    except subprocess.TimeoutExpired:
        raise Fault(f"{formula}: the program didn't end within {SECONDS} seconds") from None


def check_file(path):
    """Raises a Fault where a file can't be read, which says what to look for."""
    if not os.path.exists(path):
        raise Fault(f"{path}: there is no such file")
    command.read(path)
