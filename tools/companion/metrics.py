"""Metrics files: what one says, its lines, and how much of it a picture needs. Lengths are in design units."""

import re
from dataclasses import dataclass, field

from companion.command import Fault, read

MOST_BYTES = 8_388_608
MOST_GLYPHS = 65_535
MOST_VARIANTS = 64
MOST_PARTS = 16
MOST_HEIGHTS = 16
CORNERS = ("TR", "TL", "BR", "BL")
LENGTHS = (0, 65_535)
SIGNED = (-32_768, 65_535)
FIT_NAME = re.compile(r"[A-Za-z0-9_.-]{1,63}", re.ASCII)


@dataclass
class Glyph:
    """A glyph: its advance, how far its ink reaches up and down, its italics correction, and its accent position."""

    name: str
    advance: int
    ink_ascent: int
    ink_descent: int
    italic: int = 0
    accent: int | None = None

    def line(self):
        words = ["glyph", self.name, self.advance, self.ink_ascent, self.ink_descent, self.italic]
        return " ".join(map(str, words if self.accent is None else [*words, self.accent]))


@dataclass
class Part:
    """A part of an assembly; an extender is repeated."""

    name: str
    extender: bool
    start: int
    end: int
    full: int


@dataclass
class Stretch:
    """How a glyph grows along an axis, `v` upward or `h` to the sides: variants as (name, measure), and parts."""

    variants: list = field(default_factory=list)
    parts: list = field(default_factory=list)

    def variant_lines(self, axis, base):
        return [f"{axis}variant {base} {name} {measure}" for name, measure in self.variants]

    def part_lines(self, axis, base):
        return [f"{axis}assembly {base} {part.name} {'EXT' if part.extender else 'FIX'} {part.start} {part.end} {part.full}"
                for part in self.parts]


@dataclass
class Metrics:
    """All that a metrics file says."""

    upem: int
    ascent: int
    descent: int
    xheight: int
    overlap: int
    constants: dict
    glyphs: dict = field(default_factory=dict)
    characters: dict = field(default_factory=dict)
    stretches: dict = field(default_factory=dict)
    operators: list = field(default_factory=list)
    # By glyph and corner: heights, and one value more.
    kerns: dict = field(default_factory=dict)

    def text(self, remarks):
        """The file in its canonical form, behind lines of remarks. Kerns make it one of version 2."""
        lines = [f"mathlay-metrics {2 if self.kerns else 1}", *(f"# {remark}" for remark in remarks)]
        lines += [f"upem {self.upem}", f"line {self.ascent} {self.descent}", f"xheight {self.xheight}",
                  f"overlap {self.overlap}"]
        lines += [f"const {name} {value}" for name, value in self.constants.items()]
        lines += [glyph.line() for glyph in self.glyphs.values()]
        lines += [f"char {code:04X} {name}" for code, name in sorted(self.characters.items())]
        for name in self.glyphs:
            both = [(axis, self.stretches[axis, name]) for axis in "vh" if (axis, name) in self.stretches]
            lines += [line for axis, stretch in both for line in stretch.variant_lines(axis, name)]
            lines += [line for axis, stretch in both for line in stretch.part_lines(axis, name)]
            lines += [kern_line(name, corner, *self.kerns[name, corner]) for corner in CORNERS if (name, corner) in self.kerns]
        return "".join(line + "\n" for line in [*lines, *self.operators])


def kern_line(name, corner, heights, values):
    first, *others = values
    return " ".join(map(str, ["kern", name, corner, first, *(number for pair in zip(heights, others) for number in pair)]))


@dataclass
class Drawn:
    """What of a metrics file a picture needs: design units an em, the glyphs, the parts of assemblies, and the characters."""

    upem: int
    glyphs: dict
    parts: dict
    characters: dict = field(default_factory=dict)

    def scale(self, value, size):
        """A length at a font size, rounded to the nearest unit of 1/1024 px, ties upward."""
        return (2 * value * size + self.upem) // (2 * self.upem)


def read_drawn(path):
    """Reads what a picture needs of a metrics file that the program takes; raises a Fault where it isn't one."""
    upem, glyphs, parts, characters = None, {}, {}, {}
    for number, line in enumerate(read(path).decode("latin-1").split("\n"), 1):
        words = [] if line.startswith("#") else line.split()
        try:
            match words:
                case ["upem", value]:
                    upem = int(value)
                case ["glyph", name, advance, up, down, *_]:
                    glyphs[name] = Glyph(name, int(advance), int(up), int(down))
                case ["char", code, name]:
                    characters[int(code, 16)] = name
                case ["vassembly" | "hassembly" as word, base, name, kind, start, end, full]:
                    part = Part(name, kind == "EXT", int(start), int(end), int(full))
                    parts.setdefault((word[0], base), []).append(part)
        except ValueError:
            raise Fault(f"{path}: line {number} isn't one of a metrics file") from None
    if not upem:
        raise Fault(f"{path}: isn't a metrics file: it has no line upem")
    return Drawn(upem, glyphs, parts, characters)
