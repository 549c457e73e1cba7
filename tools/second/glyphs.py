"""One glyph at a font size: its box, how far it reaches along an axis, and the marks that are drawn."""

from typing import NamedTuple

from .boxes import Box
from .metrics import BLOCK
from .numbers import halved, is_stored


class GlyphMark(NamedTuple):
    """A glyph of the font, by its place, with its baseline's start and its font size."""

    x: int
    y: int
    size: int
    glyph: int

    def fits(self):
        return is_stored(self.x) and is_stored(self.y) and is_stored(self.size)


class RuleMark(NamedTuple):
    """A filled rectangle, by its upper left corner."""

    x: int
    y: int
    width: int
    height: int

    def fits(self):
        return all(map(is_stored, self))


class BuiltMark(NamedTuple):
    """An assembly of a base glyph, with how often each extender is repeated and how far pieces overlap."""

    x: int
    y: int
    size: int
    axis: str
    glyph: int
    count: int
    overlap: int

    def fits(self):
        return is_stored(self.x) and is_stored(self.y) and is_stored(self.size)


def glyph_box(metrics, place, size):
    """Its own advance, ink, italic correction and accent; it stands as high and as deep as its ink."""
    glyph = metrics.glyphs[place]
    advance = metrics.scaled(glyph.advance, size)
    ink_ascent, ink_descent = metrics.scaled(glyph.ink_ascent, size), metrics.scaled(glyph.ink_descent, size)
    return Box(
        width=advance,
        ascent=ink_ascent,
        descent=ink_descent,
        ink_ascent=ink_ascent,
        ink_descent=ink_descent,
        italic=metrics.scaled(glyph.italic, size),
        accent=halved(advance) if glyph.accent is None else metrics.scaled(glyph.accent, size),
    )


def glyph_reach(metrics, place, axis, size):
    """How far a glyph reaches along an axis: the height of its ink, or its advance."""
    box = glyph_box(metrics, place, size)
    return box.ink_ascent + box.ink_descent if axis == BLOCK else box.width
