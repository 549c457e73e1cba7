"""How high and how deep a stretched operator is to be (MathML Core 3.2.4.3). A span is an ascent and a descent in units."""

from .numbers import halved, rounded


def upward_span(ascent, descent, is_symmetric, least, most, axis):
    """What a pull up and down has an operator cover; `most` may be None, and the axis is its height above the baseline."""
    if is_symmetric:
        ascent, descent = evened(ascent, descent, axis)
    total = ascent + descent
    if total <= 0:
        return centred(least, axis)
    if total < least:
        return resized(ascent, descent, least, axis)
    if most is not None and most < total:
        return resized(ascent, descent, most, axis)
    return ascent, descent


def sideways_width(width, least, most):
    """What a pull to the sides has an operator cover."""
    return max(least, width if most is None else min(most, width))


def evened(ascent, descent, axis):
    """As far above the axis as below it, and far enough to cover both."""
    reach = max(ascent - axis, descent + axis)
    return reach + axis, reach - axis


def centred(size, axis):
    """Where there is nothing to cover: that size, with its middle on the axis."""
    ascent = halved(size) + axis
    return ascent, size - ascent


def resized(ascent, descent, size, axis):
    """At another size the same share of it lies above the axis, and it begins no lower than the baseline."""
    risen = max(rounded((ascent - axis) * size, ascent + descent) + axis, 0)
    return risen, size - risen
