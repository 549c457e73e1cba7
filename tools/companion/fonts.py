"""Fonts with a MATH table, read through fontTools: names, ink and outlines of their glyphs, in design units."""

import logging
import re
import struct
from contextlib import contextmanager
from dataclasses import dataclass, field
from functools import cached_property
from io import BytesIO
from math import ceil, floor
from pathlib import Path

from companion.command import Fault, one_line, read
from companion.metrics import FIT_NAME

try:
    from fontTools.pens.boundsPen import BoundsPen
    from fontTools.pens.svgPathPen import SVGPathPen
    from fontTools.pens.transformPen import TransformPen
    from fontTools.ttLib import TTFont
except ImportError:
    TTFont = None

NO_FONT_TOOLS = "fontTools is missing: install Debian's python3-fonttools, and run Debian's own /usr/bin/python3"

MISSING = "missing"
EMPTY = "invisible"


@contextmanager
def reading(path):
    """fontTools raises whatever its parsing meets: all of it says that the file can't be read."""
    try:
        yield
    except Fault:
        raise
    except Exception as fault:
        told = f"{type(fault).__name__}: {fault}" if str(fault) else type(fault).__name__
        raise Fault(f"{path}: can't be read as a font: {one_line(told)}") from None


@dataclass(eq=False)
class MathFont:
    """A font and its MATH table. `names` gives each glyph the name that it has in a metrics file, one to one; `kept` is the
    ink that was measured before."""

    path: str
    font: object
    names: dict
    kept: dict = field(default_factory=dict)

    @cached_property
    def upem(self):
        """Design units an em."""
        with reading(self.path):
            return self.font["head"].unitsPerEm

    @property
    def math(self):
        """The MATH table, or none."""
        return self.font["MATH"].table if "MATH" in self.font else None

    @cached_property
    def characters(self):
        """The glyph of each character, by code; nothing where the font has no Unicode map."""
        return self.font.getBestCmap() or {}

    def told(self, *numbers):
        """What the font's table of names tells under these numbers, in ASCII."""
        texts = [self.font["name"].getDebugName(number) for number in numbers] if "name" in self.font else []
        return one_line(" ".join(text for text in texts if text)).encode("ascii", "replace").decode()

    @property
    def title(self):
        """The full name and the version, or else the file's name."""
        return self.told(4, 5) or one_line(Path(self.path).name).encode("ascii", "replace").decode()

    @property
    def copyright(self):
        """The line on copyright."""
        return self.told(0)

    def advance(self, glyph):
        """How wide a glyph is."""
        return self.font["hmtx"][glyph][0]

    def bounds(self, glyph):
        """The ink of a glyph as (left, bottom, right, top), or none. A part of a unit counts as a whole one."""
        if glyph not in self.kept:
            with reading(self.path):
                pen = BoundsPen(self.outlines)
                self.outlines[glyph].draw(pen)
            left, bottom, right, top = pen.bounds or (0, 0, 0, 0)
            self.kept[glyph] = (floor(left), floor(bottom), ceil(right), ceil(top)) if pen.bounds else None
        return self.kept[glyph]

    def path_of(self, glyph, scale=1, right=0):
        """The outline of a glyph as an SVG path, y growing upward; scaled, and then moved to the right."""
        with reading(self.path):
            pen = SVGPathPen(self.outlines, ntos=lambda number: f"{number:.2f}".rstrip("0").rstrip("."))
            moving = TransformPen(pen, (float(scale), 0, 0, float(scale), float(right), 0))
            self.outlines[glyph].draw(pen if (scale, right) == (1, 0) else moving)
        return pen.getCommands()

    @cached_property
    def outlines(self):
        """What draws each glyph, by its name in the font."""
        return self.font.getGlyphSet()


def open_font(path, needs_math=True):
    """The font of a file; of a collection, its first font that has a MATH table, or else, where it needs none, the first.
    Raises a Fault."""
    if TTFont is None:
        raise Fault(NO_FONT_TOOLS)
    logging.getLogger("fontTools").setLevel(logging.CRITICAL + 1)
    data = read(path)
    with reading(path):
        check_whole(path, data)
        fonts = [TTFont(BytesIO(data), fontNumber=number, lazy=True) for number in range(fonts_in(data))]
        found = next((font for font in fonts if "MATH" in font), None if needs_math else fonts[0])
        if found is None:
            raise Fault(f"{path}: the font has no MATH table, so nobody can lay formulas out with it. Debian's fonts-lmodern, "
                        "fonts-texgyre-math and fonts-stix have fonts with one; this one may fill in for another by --fallback")
        return MathFont(str(path), found, fit_names(found.getGlyphOrder()))


def fonts_in(data):
    """How many fonts a file holds."""
    return struct.unpack_from(">L", data, 8)[0] if data[:4] == b"ttcf" else 1


def check_whole(path, data):
    """Raises a Fault where a file ends before its tables do."""
    try:
        ends = table_ends(path, data)
    except struct.error:
        raise Fault(f"{path}: is cut off: it ends before its list of tables does") from None
    if max(ends, default=0) > len(data):
        raise Fault(f"{path}: is cut off: it has {len(data)} bytes of {max(ends)}")


def table_ends(path, data):
    """Where the tables of a file end, or all of a compressed one; raises a Fault where it is no font."""
    if data[:4] in (b"wOFF", b"wOF2"):
        return [struct.unpack_from(">L", data, 8)[0]]
    if data[:4] == b"ttcf":
        places = struct.unpack_from(f">{fonts_in(data)}L", data, 12)
        return [end for place in places for end in ends_of_font(data, place)]
    if data[:4] in (b"\0\1\0\0", b"OTTO", b"true"):
        return ends_of_font(data, 0)
    raise Fault(f"{path}: isn't an OpenType font")


def ends_of_font(data, place):
    """Where each table ends of the font whose list of tables stands at this place of the file."""
    count = struct.unpack_from(">H", data, place + 4)[0]
    entries = [struct.unpack_from(">LL", data, place + 12 + 16 * at + 8) for at in range(count)]
    return [offset + length for offset, length in entries]


def fit_names(order, prefix="", taken=()):
    """The name in a metrics file of each glyph of a font, in the font's order: the prefix and its own. The first glyph of a
    first font, which has no prefix, is the one that shows what the font lacks. A name that doesn't fit the format, or that is
    taken, is changed until it fits and is free."""
    names, taken = {}, {MISSING, EMPTY, *taken}
    for place, glyph in enumerate(order):
        if place == 0 and not prefix:
            names[glyph] = MISSING
        elif FIT_NAME.fullmatch(prefix + glyph) and prefix + glyph not in taken:
            names[glyph] = prefix + glyph
            taken.add(prefix + glyph)
    for place, glyph in enumerate(order):
        if glyph not in names:
            room = 48 - len(prefix)
            stem = prefix + (re.sub(r"[^A-Za-z0-9_.-]", "_", glyph, flags=re.ASCII)[:room] or "glyph")
            name, number = f"{stem}.{place}", place
            while name in taken:
                number += len(order)
                name = f"{stem}.{number}"
            names[glyph] = name
            taken.add(name)
    return {glyph: names[glyph] for glyph in order}
