"""Where the boxes and marks of a tree stand, and their lines."""

from typing import NamedTuple

from .boxes import Box
from .glyphs import BuiltMark, GlyphMark


class PlacedBox(NamedTuple):
    """The box of an element, and where its baseline begins."""

    node: object
    x: int
    y: int
    box: Box


def placed(layout):
    """All boxes and marks of a layout whose baseline begins at (0, 0), in the order of their lines."""
    return items_at(layout, 0, 0)


def items_at(layout, x, y):
    """An element's box, then its marks, then its children, each at its offset; an `mphantom` shows nothing, nor does all in it."""
    if layout.node.kind == "mphantom":
        return
    yield PlacedBox(layout.node, x, y, layout.box)
    for mark in layout.marks:
        yield mark._replace(x=x + mark.x, y=y + mark.y)
    for kid, offset in zip(layout.kids, layout.offsets):
        yield from items_at(kid, x + offset[0], y + offset[1])


# ---- lines


def page(metrics, layout):
    """The lines of a layout."""
    return "".join(" ".join(map(str, words_of(metrics, item))) + "\n" for item in placed(layout)).encode()


def words_of(metrics, item):
    """The words of the line of a box or a mark."""
    if not isinstance(item, PlacedBox):
        return mark_words(metrics, item)
    box = item.box
    measures = box.width, box.ascent, box.descent, box.ink_ascent, box.ink_descent
    return "box", item.node.id, item.node.name, item.x, item.y, *measures


def mark_words(metrics, mark):
    """The words of a mark's line."""
    if isinstance(mark, GlyphMark):
        return "glyph", mark.x, mark.y, mark.size, metrics.glyphs[mark.glyph].name
    if isinstance(mark, BuiltMark):
        return "built", mark.x, mark.y, mark.size, mark.axis, metrics.glyphs[mark.glyph].name, mark.count, mark.overlap
    return "rule", mark.x, mark.y, mark.width, mark.height
