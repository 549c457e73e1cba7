"""The lines that the program writes: boxes and marks, in units of 1/1024 px, x to the right and y downward."""

from dataclasses import dataclass

from companion.command import Fault


@dataclass
class Box:
    """The box of an element: x and y of its baseline's start, and how far it and its ink reach."""

    id: int
    name: str
    x: int
    y: int
    width: int
    ascent: int
    descent: int
    ink_ascent: int
    ink_descent: int


@dataclass
class Glyph:
    """A glyph on its baseline, at a font size."""

    x: int
    y: int
    size: int
    name: str


@dataclass
class Rule:
    """A filled rectangle; y is its top."""

    x: int
    y: int
    width: int
    height: int


@dataclass
class Built:
    """The assembly of a glyph: each extender stands `count` times, and pieces overlap."""

    x: int
    y: int
    size: int
    axis: str
    base: str
    count: int
    overlap: int


# How the names of metrics lines begin.
AXES = {"block": "v", "inline": "h"}

KINDS = {"box": Box, "glyph": Glyph, "rule": Rule, "built": Built}


def read_marks(text):
    """Boxes and marks of the program's output, in its order; raises a Fault at a line that is none."""
    return [read_mark(line) for line in text.split("\n") if line]


def read_mark(line):
    word, *fields = line.split(" ")
    kind = KINDS.get(word)
    types = list(kind.__annotations__.values()) if kind else []
    try:
        if kind is None or len(fields) != len(types):
            raise ValueError
        return kind(*(of_type(field) for of_type, field in zip(types, fields)))
    except ValueError:
        raise Fault(f"the program wrote a line that is neither a box nor a mark: {line}") from None


def pieces_of(built, drawn):
    """The glyphs of a built mark, first piece first: the parts in the metrics' order, an extender `count` times in its
    place. A piece begins where the one before it ends, less the overlap. Up and down, its ink stands on that height;
    to the sides, its own start stands there."""
    parts = drawn.parts.get((AXES.get(built.axis), built.base))
    if parts is None:
        raise Fault(f"the metrics have no assembly of {built.base} along the {built.axis} axis")
    begins, pieces = 0, []
    for part in parts:
        for _ in range(built.count if part.extender else 1):
            x, y = (built.x, built.y - begins) if built.axis == "block" else (built.x + begins, built.y)
            if built.axis == "block":
                y -= drawn.scale(drawn.glyphs[part.name].ink_descent, built.size)
            pieces.append(Glyph(x, y, built.size, part.name))
            begins += drawn.scale(part.full, built.size) - built.overlap
    return pieces
