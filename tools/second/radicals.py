"""Radicals (MathML Core 3.3.3). Places and marks count x from the box's start, and y downward from its baseline."""

from typing import NamedTuple

from .boxes import Box
from .glyphs import RuleMark
from .metrics import BLOCK
from .numbers import halved, rounded
from .shaping import shaped

SURD = 0x221A


class Radical(NamedTuple):
    """The box, the marks of surd and rule, and the places of the index and the base."""

    box: Box
    marks: tuple
    index: tuple
    base: tuple


def square_root(metrics, base, is_display, size):
    return root_from(metrics, base, 0, is_display, size)


def root_with_index(metrics, base, index, is_display, size):
    """The index ahead of the root, and raised. The space ahead of it is never below 0; that behind it takes back at most its width."""
    ahead = max(metrics.constant("RadicalKernBeforeDegree", size), 0)
    start = ahead + index.width + max(metrics.constant("RadicalKernAfterDegree", size), -index.width)
    root = root_from(metrics, base, start, is_display, size)
    height = index_height(metrics, root.box, index)
    box = root.box.joined(index.raised(height)).of_width(start + root.box.width)
    return root._replace(box=box, index=(ahead, -height))


def root_from(metrics, base, start, is_display, size):
    """A root without an index that begins at a start; its box counts from there. The surd's ink ends at the rule's upper edge."""
    thickness = metrics.constant("RadicalRuleThickness", size)
    gap = metrics.constant("RadicalDisplayStyleVerticalGap" if is_display else "RadicalVerticalGap", size)
    top = base.ink_ascent + gap + thickness
    surd = shaped(metrics, metrics.place_of(SURD), BLOCK, top + base.ink_descent, size)
    behind = start + surd.box.width
    return Radical(
        box=root_box(base, surd.box, top, metrics.constant("RadicalExtraAscender", size)),
        marks=(surd.mark(start, surd.box.ink_ascent - top, size), RuleMark(behind, -top, base.width, thickness)),
        index=(0, 0),
        base=(behind, 0),
    )


def root_box(base, surd, top, extra):
    """The box of a root whose rule's upper edge lies at a height, where the surd's ink hangs down from it."""
    foot = surd.ink_ascent + surd.ink_descent - top
    width = surd.width + base.width
    return Box(
        width=width,
        ascent=max(base.ascent, top + extra),
        descent=max(base.descent, foot),
        ink_ascent=max(base.ink_ascent, top),
        ink_descent=max(base.ink_descent, foot),
        accent=halved(width),
    )


def index_height(metrics, root, index):
    """How high an index stands: its ink ends that share of the root's ink above the foot of that ink."""
    share = rounded(metrics.degree_raise() * (root.ink_ascent + root.ink_descent), 100)
    return share - root.ink_descent + index.ink_descent
