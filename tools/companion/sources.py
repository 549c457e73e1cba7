"""The fonts that a metrics file is made of: the first, which has the table MATH, and those that fill in what it lacks.

A glyph of the first font has its own name in the metrics. One of the Nth other font is `fallbackN.` and its name; its lengths
are scaled so that an em of its font is one of the first font. `NAME.spaced` is a glyph whose ink begins where the glyph begins
and ends where it ends. `blank.CODE` is a space. So the same fonts, in the same order, give the same names."""

import re
import unicodedata
from dataclasses import dataclass
from fractions import Fraction
from math import ceil, floor

from companion.command import Fault
from companion.fonts import EMPTY, MISSING, fit_names
from companion.metrics import FIT_NAME

SPACED = ".spaced"
BLANK = re.compile(r"blank\.[0-9A-F]{4,6}")
# The box that shows what no font has, where the first font's own sign is empty, in thousandths of an em: its left, lower,
# right and upper end, its line, and how wide it is in all.
BOX = (60, 0, 440, 660)
BOX_LINE = 40
BOX_ADVANCE = 500


@dataclass(frozen=True)
class Shape:
    """A glyph of the font at a place among the fonts; a spaced one has its ink as its room."""

    place: int
    glyph: str
    spaced: bool = False


class Sources:
    """Fonts by their places, and the names of their glyphs in the metrics. Lengths are in units of the first font's em."""

    def __init__(self, fonts):
        self.fonts = fonts
        self.first = fonts[0]
        self.names = {(0, glyph): name for glyph, name in self.first.names.items()}
        taken = set(self.first.names.values()) | {EMPTY}
        for place, font in enumerate(fonts[1:], 1):
            for glyph, name in fit_names(list(font.names), f"fallback{place}.", taken).items():
                self.names[place, glyph] = name
                taken.add(name)
        self.shapes = {name: Shape(*key) for key, name in self.names.items()}
        self.inks = {}

    @property
    def upem(self):
        return self.first.upem

    def name(self, shape):
        """The name of a shape in the metrics, or none where it would be longer than a name may be, or another glyph's."""
        name = self.names[shape.place, shape.glyph]
        if not shape.spaced:
            return name
        name += SPACED
        return name if FIT_NAME.fullmatch(name) and name not in self.shapes else None

    def shape(self, name):
        """The shape that a name stands for, or none of one that shows nothing; raises a Fault where no font has it."""
        if name in self.shapes:
            return self.shapes[name]
        stem = name.removesuffix(SPACED)
        if stem != name and stem in self.shapes:
            own = self.shapes[stem]
            return Shape(own.place, own.glyph, True)
        if name == EMPTY or BLANK.fullmatch(name):
            return None
        if found := re.match(r"fallback(\d+)\.", name):
            raise Fault(f"no font has the glyph {name}: the metrics were made with {found[1]} more: name each, in their order, by "
                        "--fallback FONT")
        raise Fault(f"{self.first.path}: has no glyph {name}: the metrics are of another font")

    def scaled(self, place, value):
        """A length of a font, in units of the first, which may be a fraction."""
        return value if place == 0 else Fraction(value * self.upem, self.fonts[place].upem)

    def is_box(self, shape):
        """Whether a shape is the sign for what no font has, and the first font's own is empty."""
        return self.names[shape.place, shape.glyph] == MISSING and self.first.bounds(shape.glyph) is None

    def thousandths(self, value):
        return round(value * self.upem / 1000)

    def advance(self, shape):
        """How wide a shape is."""
        if self.is_box(shape):
            return self.thousandths(BOX_ADVANCE)
        if shape.spaced and (ink := self.ink(shape)):
            return ink[2]
        return floor(self.scaled(shape.place, self.fonts[shape.place].advance(shape.glyph)) + Fraction(1, 2))

    def ink(self, shape):
        """Left, bottom, right and top of the ink, rounded outward, or none."""
        if shape not in self.inks:
            self.inks[shape] = self.measured(shape)
        return self.inks[shape]

    def measured(self, shape):
        """The ink of a shape that wasn't measured before."""
        if self.is_box(shape):
            return tuple(map(self.thousandths, BOX))
        bounds = self.fonts[shape.place].bounds(shape.glyph)
        if bounds is None:
            return None
        left, bottom, right, top = (self.scaled(shape.place, value) for value in bounds)
        moved = left if shape.spaced else 0
        return floor(left - moved), floor(bottom), ceil(right - moved), ceil(top)

    def accent(self, shape, told):
        """An accent position of a shape's glyph, in units of the first font and from where the shape begins."""
        moved = self.fonts[shape.place].bounds(shape.glyph) if shape.spaced else None
        return round(self.scaled(shape.place, told - (moved[0] if moved else 0)))

    def path(self, shape):
        """The outline as an SVG path, y growing upward; empty where nothing is drawn."""
        if self.is_box(shape):
            return self.box_path()
        font = self.fonts[shape.place]
        bounds = font.bounds(shape.glyph)
        if bounds is None:
            return ""
        return font.path_of(shape.glyph, self.scaled(shape.place, 1), self.scaled(shape.place, -bounds[0]) if shape.spaced else 0)

    def box_path(self):
        """A frame: a rectangle, and one within it that runs the other way round."""
        left, bottom, right, top = map(self.thousandths, BOX)
        line = self.thousandths(BOX_LINE)
        return (f"M{left} {bottom}H{right}V{top}H{left}Z"
                f"M{left + line} {bottom + line}V{top - line}H{right - line}V{bottom + line}Z")


def is_combining(code):
    """Whether a character stands over or under the one before it."""
    return unicodedata.category(chr(code)) == "Mn"


def character_name(code):
    """A character as it is told: `U+203E OVERLINE`."""
    return f"U+{code:04X} {unicodedata.name(chr(code), '')}".strip()
