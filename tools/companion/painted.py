"""The picture that the program paints, read back: its glyphs and rules in their order, in units of 1/1024 px."""

import re

from companion.command import Fault
from companion.marks import AXES, Built, Glyph, Rule

HEAD = re.compile(r'<svg xmlns="http://www\.w3\.org/2000/svg" viewBox="0 -?\d+ \d+ \d+">')
USE = re.compile(r'<use href="#([A-Za-z0-9_.-]+)" transform="translate\((-?\d+) (-?\d+)\) scale\((\d+)\)"/>')
RECT = re.compile(r'<rect x="(-?\d+)" y="(-?\d+)" width="(\d+)" height="(\d+)"/>')


def read_painted(text):
    """All glyphs and rules of a picture; raises a Fault at a line that is none."""
    head, *lines = text.removesuffix("\n").split("\n")
    if not HEAD.fullmatch(head) or lines[-1:] != ["</svg>"]:
        raise Fault("the program painted no picture")
    return [read_line(line) for line in lines[:-1]]


def read_line(line):
    if found := USE.fullmatch(line):
        name, x, y, size = found.groups()
        return Glyph(int(x), int(y), int(size), name)
    if found := RECT.fullmatch(line):
        return Rule(*map(int, found.groups()))
    raise Fault(f"the program painted a line that is neither a glyph nor a rule: {line}")


def shared_out(marks, painted, drawn):
    """What was painted of each mark that is no box, as pairs of both; raises a Fault where the two don't go together."""
    rest, pairs = iter(painted), []
    for mark in marks:
        pairs.append((mark, [piece for _, piece in zip(range(count_of(mark, drawn)), rest)]))
    if any(len(pieces) != count_of(mark, drawn) for mark, pieces in pairs) or next(rest, None) is not None:
        raise Fault("the program painted other marks than it laid out")
    return pairs


def count_of(mark, drawn):
    """Of how many glyphs or rules a mark is painted: an assembly of its pieces, and a rule without an area of none."""
    if isinstance(mark, Rule):
        return int(mark.width > 0 and mark.height > 0)
    if not isinstance(mark, Built):
        return 1
    parts = drawn.parts.get((AXES.get(mark.axis), mark.base))
    if parts is None:
        raise Fault(f"the metrics have no assembly of {mark.base} along the {mark.axis} axis")
    return sum(mark.count if part.extender else 1 for part in parts)
