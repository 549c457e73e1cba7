"""Fractions and stacks (MathML Core 3.3.2). Places and marks count x from the box's start, and y downward from its baseline."""

from typing import NamedTuple

from .boxes import Box
from .glyphs import RuleMark
from .numbers import halved

BEARING = 1024  # units that stay free at both ends


class Fraction(NamedTuple):
    """The box, the places of both parts, and the rule or None."""

    box: Box
    top: tuple
    bottom: tuple
    rule: RuleMark | None


def fraction(metrics, top, bottom, thickness, is_display, size):
    """With a rule where the thickness is above 0, and else a stack."""
    if thickness <= 0:
        return placed(top, bottom, *stack_shifts(metrics, top, bottom, is_display, size))
    axis = metrics.constant("AxisHeight", size)
    parts = placed(top, bottom, *rule_shifts(metrics, top, bottom, thickness, is_display, size))
    lower = axis - halved(thickness)
    upper = lower + thickness
    rule = RuleMark(BEARING, -upper, parts.box.width - 2 * BEARING, thickness)
    return parts._replace(box=parts.box.joined(Box(0, upper, -lower, upper, -lower)), rule=rule)


def rule_shifts(metrics, top, bottom, thickness, is_display, size):
    """How far the parts are moved up and down: as usual, or just so that ink keeps its gap to the rule."""
    style = "DisplayStyle" if is_display else ""
    gap = "FractionNumDisplayStyleGapMin" if is_display else "FractionNumeratorGapMin"
    gap_below = "FractionDenomDisplayStyleGapMin" if is_display else "FractionDenominatorGapMin"
    axis, half = metrics.constant("AxisHeight", size), halved(thickness)
    up = metrics.constant(gap, size) + top.ink_descent + axis + half
    down = metrics.constant(gap_below, size) + bottom.ink_ascent + half - axis
    return (
        max(metrics.constant(f"FractionNumerator{style}ShiftUp", size), up),
        max(metrics.constant(f"FractionDenominator{style}ShiftDown", size), down),
    )


def stack_shifts(metrics, top, bottom, is_display, size):
    """As usual; each part makes up for half of what the gap between the ink lacks, and the lower one for an odd unit."""
    style = "DisplayStyle" if is_display else ""
    up = metrics.constant(f"StackTop{style}ShiftUp", size)
    down = metrics.constant(f"StackBottom{style}ShiftDown", size)
    gap = up - top.ink_descent + down - bottom.ink_ascent
    lack = max(metrics.constant(f"Stack{style}GapMin", size) - gap, 0)
    return up + halved(lack), down + lack - halved(lack)


def placed(top, bottom, up, down):
    """Both parts without a rule, each in the middle of the wider one."""
    inner = max(top.width, bottom.width)
    return Fraction(
        box=top.raised(up).joined(bottom.raised(-down)).of_width(inner + 2 * BEARING),
        top=(BEARING + halved(inner - top.width), -up),
        bottom=(BEARING + halved(inner - bottom.width), down),
        rule=None,
    )
