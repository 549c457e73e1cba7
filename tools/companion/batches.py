"""Many formulas by one process of the program: a script for `mathlay edit` puts each formula in the place of the one before it,
and shows it. A formula that is refused ends the process, and another one goes on behind it."""

import subprocess
import tempfile
from dataclasses import dataclass, field
from pathlib import Path

from companion import command, refusals
from companion.command import Fault
from companion.marks import read_mark
from companion.program import Inputs
from companion.svg import renumbered
from companion.trees import json_text

# A script has at most 65,536 lines; programs that read it whole take 16,777,216 bytes of it, and each a line of 1,048,576.
MOST_LINES = 65_000
MOST_BYTES = 16_000_000
MOST_LINE = 1_048_576
EMPTY = '{"name":"math"}\n'


@dataclass
class Work:
    """A formula that is to be laid out: its tree, how many lines of the script are its own, and the id of its first child."""

    tree: object
    lines: int = 0
    first: int = 2


@dataclass
class Script:
    """The lines of a script, and the state of the tree behind them."""

    text: list = field(default_factory=list)
    size: int = 0
    attributes: dict = field(default_factory=dict)
    children: list = field(default_factory=list)
    next_id: int = 2

    def add(self, work):
        """Adds the lines of a formula, or tells that there is no room for them."""
        root = work.tree.root
        wanted = root.get("attributes", {})
        lines = [{"op": "remove", "node": child} for child in self.children]
        lines += [{"op": "attr", "node": 1, "name": name} for name in self.attributes if name not in wanted]
        lines += [{"op": "attr", "node": 1, "name": name, "value": value} for name, value in wanted.items()
                  if self.attributes.get(name) != value]
        ids, first = [], self.next_id
        for place, child in enumerate(root.get("children", [])):
            lines.append({"op": "insert", "node": 1, "index": place, "element": child})
            ids.append(first)
            first += count_of(child)
        texts = [json_text(line) + "\n" for line in [*lines, {"op": "show"}]]
        size = sum(len(text.encode()) for text in texts)
        if self.text and (len(self.text) + len(texts) > MOST_LINES or self.size + size > MOST_BYTES):
            return False
        work.lines, work.first = len(texts), self.next_id
        self.text += texts
        self.size += size
        self.attributes, self.children, self.next_id = wanted, ids, first
        return True


def count_of(element):
    """How many elements there are in one, with itself."""
    return 1 + sum(map(count_of, element.get("children", [])))


def laid_out(program, metrics, trees):
    """Of each tree in turn the boxes and marks, or a Fault."""
    works = [Work(tree) for tree in trees]
    done = 0
    with tempfile.TemporaryDirectory(prefix="mathlay-") as room:
        (Path(room) / "empty.json").write_text(EMPTY)
        while done < len(works):
            for outcome in batch(program, metrics, works[done:], Path(room)):
                done += 1
                yield outcome


def batch(program, metrics, works, room):
    """The outcomes of the first works, as many as one process lays out, which is one at least."""
    script, count = Script(), 0
    while count < len(works) and script.add(works[count]):
        count += 1
    name = room / "script"
    name.write_text("".join(script.text), encoding="utf-8")
    inputs = Inputs(metrics, str(room / "empty.json"), str(name))
    words = [*program, "edit", inputs.metrics, inputs.tree, inputs.script]
    try:
        child = subprocess.Popen(words, stdin=subprocess.DEVNULL, stdout=subprocess.PIPE, stderr=subprocess.DEVNULL)
    except (OSError, ValueError) as fault:
        raise Fault(f"{words[0]}: {command.reason(fault)}") from None
    with child:
        try:
            yield from outcomes(child, works[:count], inputs)
        finally:
            child.kill()


def outcomes(child, works, inputs):
    """The outcome of each work, read from what the process writes; a refused one is the last."""
    lines = Lines(child.stdout)
    for place, work in enumerate(works):
        replies = [lines.next() for _ in range(work.lines)]
        refused = next((reply for reply in replies if reply not in ("ok", "shown")), None)
        if refused is None:
            yield renumbered([read_mark(line) for line in lines.shown()], work.first)
        elif refused.startswith("refused "):
            yield Fault(f"{work.tree.places[0]}: {refusals.refusal(refused, inputs) or refused}")
            return
        else:
            yield ended(child.wait(), lines.last, work, inputs, place == 0)
            return


def ended(status, last, work, inputs, is_first):
    """The outcome of the formula at which the process ended; raises a Fault where no other formula would fare better."""
    inputs.told, inputs.script = str(work.tree.places[0]), None
    told = Fault(refusals.ending(status, last, "", inputs))
    if is_first and status in (2, 3, 5):
        raise told
    return told


class Lines:
    """The lines that the process writes, one looked at ahead."""

    def __init__(self, stream):
        self.stream, self.last = stream, ""
        self.ahead = None

    def next(self):
        line = self.ahead if self.ahead is not None else self.stream.readline().decode("utf-8", "replace")
        self.ahead = None
        self.last = line.rstrip("\n") or self.last
        return line.rstrip("\n")

    def shown(self):
        """The lines of boxes and marks up to the next reply."""
        found = []
        while (line := self.next()) and not (line in ("ok", "shown") or line.startswith("refused ")):
            found.append(line)
        self.ahead = line + "\n" if line else ""
        return found
