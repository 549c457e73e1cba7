"""The paint list of a tree: single glyphs and rules, in place of assemblies; and the SVG of it."""

from itertools import accumulate

from .glyphs import BuiltMark, GlyphMark
from .metrics import BLOCK
from .placing import PlacedBox, placed

MOST_ENTRIES = 33554432


class TooMany(Exception):
    """A paint list would be too long."""


def painted(metrics, layout):
    """The marks of a layout in their order, each assembly as its pieces; raises TooMany before a list that is too long is made."""
    marks = [item for item in placed(layout) if not isinstance(item, PlacedBox)]
    if sum(entry_count(metrics, mark) for mark in marks) > MOST_ENTRIES:
        raise TooMany
    return [entry for mark in marks for entry in entries_of(metrics, mark)]


def entry_count(metrics, mark):
    """How many entries of the list a mark makes."""
    if not isinstance(mark, BuiltMark):
        return 1
    return sum(mark.count if part.is_extender else 1 for part in metrics.parts_of(mark.glyph, mark.axis))


def entries_of(metrics, mark):
    """A glyph or a rule as it is, and an assembly as the glyphs of its pieces."""
    if not isinstance(mark, BuiltMark):
        return [mark]
    pieces = [part for part in metrics.parts_of(mark.glyph, mark.axis) for _ in range(mark.count if part.is_extender else 1)]
    steps = [metrics.scaled(piece.full, mark.size) - mark.overlap for piece in pieces]
    starts = accumulate(steps, initial=0)
    return [piece_at(metrics, mark, piece, start) for piece, start in zip(pieces, starts)]


def piece_at(metrics, mark, piece, start):
    """A piece that begins so far along its mark: to the right, or upward from the baseline, where its ink begins."""
    if mark.axis != BLOCK:
        return GlyphMark(mark.x + start, mark.y, mark.size, piece.glyph)
    drop = metrics.scaled(metrics.glyphs[piece.glyph].ink_descent, mark.size)
    return GlyphMark(mark.x, mark.y - start - drop, mark.size, piece.glyph)


def svg_of(metrics, layout):
    """The bytes of the picture; the outlines of glyphs are the reader's to supply, by their names, with one em as one unit."""
    box = layout.box
    lines = [f'<svg xmlns="http://www.w3.org/2000/svg" viewBox="0 {-box.ascent} {max(0, box.width)} {max(0, box.ascent + box.descent)}">']
    lines += filter(None, (svg_line(metrics, entry) for entry in painted(metrics, layout)))
    return "".join(line + "\n" for line in [*lines, "</svg>"]).encode()


def svg_line(metrics, entry):
    """The line of an entry, or None of a rule without an area."""
    if isinstance(entry, GlyphMark):
        place = f"translate({entry.x} {entry.y}) scale({entry.size})"
        return f'<use href="#{metrics.glyphs[entry.glyph].name}" transform="{place}"/>'
    if entry.width <= 0 or entry.height <= 0:
        return None
    return f'<rect x="{entry.x}" y="{entry.y}" width="{entry.width}" height="{entry.height}"/>'
