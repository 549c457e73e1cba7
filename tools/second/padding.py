"""Rows with an addition: `merror`, `mpadded` and the cells of tables (MathML Core 3.3.4, 3.3.6 and 3.5)."""

from .boxes import Box
from .numbers import halved, rounded
from .spaces import absolute, measure

BORDER = 1024  # units: what stands round an error, in place of a border


def error_box(row):
    width = row.width + 2 * BORDER
    return Box(
        width=width,
        ascent=row.ascent + BORDER,
        descent=row.descent + BORDER,
        ink_ascent=row.ink_ascent + BORDER,
        ink_descent=row.ink_descent + BORDER,
        accent=halved(width),
    )


def padded_start(metrics, attributes, size):
    """Where the row begins."""
    return measure(metrics, attributes, "lspace", 0, size)


def padded_rise(metrics, attributes, size):
    """How far the row is raised, which may be less than nothing."""
    return absolute(metrics, attributes, "voffset", size) or 0


def padded_box(metrics, attributes, row, size):
    """Its measures are those of the attributes, by default the row's, and its ink is the row's where it stands."""
    width = measure(metrics, attributes, "width", row.width, size)
    rise = padded_rise(metrics, attributes, size)
    return Box(
        width=width,
        ascent=measure(metrics, attributes, "height", row.ascent, size),
        descent=measure(metrics, attributes, "depth", row.descent, size),
        ink_ascent=row.ink_ascent + rise,
        ink_descent=row.ink_descent - rise,
        accent=halved(width),
    )


def cell_start(size):
    """Where the row in a cell begins: 0.4em, as much as is free behind it."""
    return rounded(2 * size, 5)


def cell_box(metrics, row, size):
    """The row with padding: at both sides, and 0.5ex above and below."""
    rise = rounded(metrics.ex(size), 2)
    padded = row._replace(ascent=row.ascent + rise, descent=row.descent + rise)
    return padded.of_width(row.width + 2 * cell_start(size))
