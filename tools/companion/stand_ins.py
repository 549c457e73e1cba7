"""What may show a character that a font lacks: the table tools/stand_ins.txt, whose head says how a line is read."""

import re
from dataclasses import dataclass
from fractions import Fraction
from pathlib import Path

from companion.command import Fault, read

TABLE = Path(__file__).resolve().parent.parent / "stand_ins.txt"
LINE = re.compile(r"([0-9A-F]{4,6})(?:\.\.([0-9A-F]{4,6}))? ([=~]) (?:blank (\d+(?:/[1-9]\d*)?)|([0-9A-F]{4,6}(?: [0-9A-F]{4,6})*))")


@dataclass
class StandIns:
    """Of each character: those that look the same, those that are poorer, and its width in ems where it shows nothing."""

    same: dict
    poorer: dict
    blanks: dict


def read_stand_ins(path=TABLE):
    """The table; raises a Fault at a line that is none."""
    table = StandIns({}, {}, {})
    for number, line in enumerate(read(path).decode("utf-8", "replace").split("\n"), 1):
        text = " ".join(line.partition("#")[0].split())
        if not text:
            continue
        found = LINE.fullmatch(text)
        if not found:
            raise Fault(f"{path}: line {number} is none of the table: CODE or CODE..CODE, then = or ~, then codes or `blank 1/4`")
        first, last = int(found[1], 16), int(found[2] or found[1], 16)
        for place in range(last - first + 1):
            if found[4]:
                table.blanks[first + place] = Fraction(found[4])
            else:
                kind = table.same if found[3] == "=" else table.poorer
                kind.setdefault(first + place, []).extend(int(code, 16) + place for code in found[5].split())
    return table
