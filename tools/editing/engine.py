"""One process of `mathlay history`, which is spoken to line by line over a pipe."""

import os
import select
import subprocess
import tempfile
import time
from dataclasses import dataclass, field

from companion import command, refusals
from companion.command import Fault
from companion.program import Inputs, ended
from companion.trees import json_text

# How many edits can be undone.
DEPTH = 1000
# The limits of a script: its lines, and the bytes of one.
MOST_LINES, LONGEST_LINE = 65_536, 1_048_576
# How long the program may be silent, in seconds.
SILENCE = 60
# A line that is no command: its reply shows where the reply to a show ends.
END, ENDED = '{"op":"end"}', "refused line"
SHOW, UNDO, REDO = {"op": "show"}, {"op": "undo"}, {"op": "redo"}
PIECE = 65_536


def lacking(program, commands):
    """The first of some commands that a program's usage line doesn't name, or none; raises a Fault."""
    usage = ended(program, "the program").stdout.decode("utf-8", "replace")
    return next((word for word in commands if f" {word} " not in usage), None)


class Broken(Exception):
    """The engine can't go on: why, as one sentence."""


@dataclass
class Answer:
    """The reply to each edit, the lines of boxes and marks behind them, and how long that took."""

    replies: list = field(default_factory=list)
    shown: list = field(default_factory=list)
    microseconds: int = 0


class Engine:
    """A process with a tree. `room` is how many lines it still takes."""

    def __init__(self, program, metrics, tree_text):
        handle, self.tree = tempfile.mkstemp(prefix="mathlay-", suffix=".json")
        with os.fdopen(handle, "w", encoding="utf-8") as file:
            file.write(tree_text)
        self.metrics, self.room, self.held = metrics, MOST_LINES, b""
        words = [*program, "history", str(DEPTH), metrics, self.tree, "/dev/stdin"]
        try:
            self.child = subprocess.Popen(words, stdin=subprocess.PIPE, stdout=subprocess.PIPE, stderr=subprocess.DEVNULL)
        except (OSError, ValueError) as fault:
            os.unlink(self.tree)
            raise Fault(f"{words[0]}: {command.reason(fault)}") from None

    @property
    def pid(self):
        return self.child.pid

    def ask(self, edits):
        """Says the edits, then asks to be shown the tree; raises Broken."""
        lines = [json_text(edit) for edit in [*edits, SHOW]] + [END]
        data = "".join(line + "\n" for line in lines).encode()
        began = time.perf_counter_ns()
        self.say(data, len(lines))
        answer = Answer([self.reply() for _ in edits])
        self.reply()
        while (line := self.line()) != ENDED:
            answer.shown.append(line)
        answer.microseconds = (time.perf_counter_ns() - began) // 1000
        self.drop_tree()
        return answer

    def say(self, data, count):
        """Writes lines; raises Broken."""
        self.room -= count
        try:
            self.child.stdin.write(data)
            self.child.stdin.flush()
        except (OSError, ValueError):
            raise Broken(self.ending()) from None

    def reply(self):
        """The next reply of one line; raises Broken where the engine wrote something else, as it does when it ends."""
        line = self.line()
        if line not in ("ok", "shown") and not line.startswith("refused "):
            raise Broken(self.ending(line))
        return line

    def line(self):
        """The next line that the engine writes; raises Broken."""
        while b"\n" not in self.held:
            ready, _, _ = select.select([self.child.stdout], [], [], SILENCE)
            if not ready:
                raise Broken(f"The engine was silent for {SILENCE} seconds.")
            piece = os.read(self.child.stdout.fileno(), PIECE)
            if not piece:
                raise Broken(self.ending())
            self.held += piece
        line, _, self.held = self.held.partition(b"\n")
        return line.decode("utf-8", "replace")

    def ending(self, last=""):
        """Why the engine has ended, as a sentence; what it wrote last may tell."""
        try:
            status = self.child.wait(timeout=5)
        except subprocess.TimeoutExpired:
            return "The engine has closed its output."
        if status == 0:
            return "The engine's pipe was closed, and it ended."
        told = refusals.ending(status, last, "", Inputs(self.metrics, self.tree, None, "the formula"))
        return f"The engine ended: {told}."

    def close(self):
        """Ends the process."""
        self.child.kill()
        self.child.wait()
        for stream in (self.child.stdin, self.child.stdout):
            try:
                stream.close()
            except OSError:
                pass
        self.drop_tree()

    def drop_tree(self):
        """Removes the file of the tree, which the engine has read."""
        try:
            os.unlink(self.tree)
        except OSError:
            pass
