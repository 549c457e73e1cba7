"""The box of an `mspace` (MathML Core 3.2.5), and the lengths that it and padded elements have in common."""

from .boxes import Box
from .lengths import length_of, resolved
from .numbers import halved


def absolute(metrics, attributes, name, size):
    """The length that an attribute writes, in units at a font size, or None; a percentage counts as absent."""
    length = length_of(attributes.get(name))
    if length is None or length.unit == "%":
        return None
    return resolved(length, size, metrics.ex(size), 0)


def measure(metrics, attributes, name, default, size):
    """The same, where less than nothing counts as nothing, or else a default."""
    given = absolute(metrics, attributes, name, size)
    return default if given is None else max(0, given)


def space(metrics, node, size):
    """It has no ink, and reaches as far as if it had."""
    width, ascent, descent = (measure(metrics, node.attributes, name, 0, size) for name in ("width", "height", "depth"))
    return Box(width, ascent, descent, ascent, descent, accent=halved(width))
