"""Limits under and over a base (MathML Core 3.4.2). Places count x from the box's start, and y downward from its baseline."""

from typing import NamedTuple

from .boxes import Box
from .metrics import INLINE
from .numbers import halved
from .rows import asked_first, asked_second, asked_under

# What a base is to its limits.
LARGE, STRETCHY, PLAIN = "large", "stretchy", "plain"

# ---- what is asked, by the axes along which the children stretch


def first_of_limits(axes, own):
    """A pull up and down goes to the base, which then counts as a child that doesn't stretch to the sides."""
    if own is None:
        return asked_first(axes, INLINE, (INLINE, 0))
    if own[0] == INLINE:
        return asked_under(axes, own)
    return [(0, own), *((place, None) for place, axis in enumerate(axes) if place > 0 and axis != INLINE)]


def second_of_limits(axes, own, boxes):
    """What stretches to the sides, with the largest width that the first wave gave; under a pull to the sides nothing."""
    if own is not None and own[0] == INLINE:
        return []
    asked = asked_second(axes, (INLINE, max((box.width for box in boxes), default=0)))
    return asked if own is None else [(place, pull) for place, pull in asked if place > 0]


# ---- one limit


class Placed(NamedTuple):
    """A limit from the start of its base: where it begins, how high its baseline stands, and its box there."""

    x: int
    height: int
    box: Box


def under_limit(metrics, base, under, case, is_accent, size):
    distance, extra = below(metrics, base, under, case, is_accent, size)
    box = under.raised(-distance)
    lean = base.italic if case == LARGE else 0
    x = halved(base.width - under.width) - halved(lean)
    return Placed(x, -distance, box._replace(descent=box.descent + extra))


def over_limit(metrics, base, over, case, is_accent, size):
    """An accent over a plain base stands over the base's accent."""
    distance, extra = above(metrics, base, over, case, is_accent, size)
    box = over.raised(distance)
    lean = base.italic if case == LARGE else 0
    x = halved(base.width - over.width) + halved(lean)
    if case == PLAIN and is_accent:
        x = base.accent - over.accent
    return Placed(x, distance, box._replace(ascent=box.ascent + extra))


def above(metrics, base, over, case, is_accent, size):
    """How far the baseline of an overscript lies above that of the base, and what its box counts beyond its own."""
    ink, limit = base.ink_ascent, over.ink_descent
    if case == LARGE:
        rise, gap = metrics.constant("UpperLimitBaselineRiseMin", size), metrics.constant("UpperLimitGapMin", size)
        return ink + max(rise, gap + limit), 0
    if case == STRETCHY:
        shift, gap = metrics.constant("StretchStackTopShiftUp", size), metrics.constant("StretchStackGapAboveMin", size)
        return max(shift, ink + gap + limit), 0
    if is_accent:
        return max(ink, metrics.constant("AccentBaseHeight", size)) + limit, 0
    return ink + metrics.constant("OverbarVerticalGap", size) + limit, metrics.constant("OverbarExtraAscender", size)


def below(metrics, base, under, case, is_accent, size):
    """How far the baseline of an underscript lies below that of the base, and what its box counts beyond its own."""
    ink, limit = base.ink_descent, under.ink_ascent
    if case == LARGE:
        fall, gap = metrics.constant("LowerLimitBaselineDropMin", size), metrics.constant("LowerLimitGapMin", size)
        return ink + max(fall, gap + limit), 0
    if case == STRETCHY:
        shift, gap = metrics.constant("StretchStackBottomShiftDown", size), metrics.constant("StretchStackGapBelowMin", size)
        return max(shift, ink + gap + limit), 0
    if is_accent:
        return ink + limit, 0
    return ink + metrics.constant("UnderbarVerticalGap", size) + limit, metrics.constant("UnderbarExtraDescender", size)


# ---- all parts


class Limits(NamedTuple):
    """The box, and the places of base, underscript and overscript, (0, 0) for one that isn't there."""

    box: Box
    base: tuple
    under: tuple
    over: tuple


def with_limits(metrics, base, under, over, case, accent, accentunder, size):
    """Limits may begin before their base: all parts then move right, so that the first one begins at the start."""
    lower = under_limit(metrics, base, under, case, accentunder, size) if under else None
    upper = over_limit(metrics, base, over, case, accent, size) if over else None
    parts = [part for part in (lower, upper) if part]
    start, end, whole = 0, base.width, base
    for part in parts:
        start, end, whole = min(start, part.x), max(end, part.x + part.box.width), whole.joined(part.box)
    spots = [(part.x - start, -part.height) if part else (0, 0) for part in (lower, upper)]
    return Limits(whole._replace(width=end - start, italic=0, accent=base.accent - start), (-start, 0), *spots)
