"""Rows: what a row asks of its children in two waves, and where they stand side by side.

A pull is None, or a tuple `(BLOCK, ascent, descent)` or `(INLINE, width)` of what is to be covered along an axis. What is asked is
a list of pairs: the place of a child, counted from 0, and the pull with which it is laid out.
"""

from typing import NamedTuple

from .boxes import Box, all_joined
from .metrics import BLOCK, INLINE
from .numbers import halved

# ---- what is asked, where `axes` has for each child the axis along which it stretches, or None


def asked_under(axes, pull):
    """One wave: what stretches along the axis of a pull is asked with it, and the other children without."""
    return [(place, pull if pull and axis == pull[0] else None) for place, axis in enumerate(axes)]


def asked_first(axes, axis, least):
    """What doesn't stretch along an axis; or where all children do, they all are asked with the least pull."""
    if all(each == axis for each in axes):
        return [(place, least) for place in range(len(axes))]
    return [(place, None) for place, each in enumerate(axes) if each != axis]


def asked_second(axes, pull):
    """And then what does stretch along the axis of a pull."""
    return [(place, pull) for place, each in enumerate(axes) if each == pull[0]]


def first_of_row(axes, own):
    return asked_under(axes, own) if own else asked_first(axes, BLOCK, (BLOCK, 0, 0))


def second_of_row(axes, own, boxes):
    """With the largest ink ascent and descent of the boxes that the first wave gave; under a pull all are asked already."""
    whole = all_joined(boxes)
    return [] if own else asked_second(axes, (BLOCK, whole.ink_ascent, whole.ink_descent))


# ---- where children stand


class RowKid(NamedTuple):
    """A child's box, the spaces before and after it, and whether it is an embellished operator."""

    box: Box
    before: int
    after: int
    is_embellished: bool


class Row(NamedTuple):
    box: Box
    offsets: list  # how far to the right each child begins


def mirrored(x, width, whole):
    """Where a part of a width begins from the left that begins there from the right, in a whole of another width."""
    return whole - x - width


def mirrored_row(row, kids):
    """A row from right to left: its children stand as they did, seen from its end; an only child's accent is where it stands then."""
    offsets = [mirrored(x, kid.box.width, row.box.width) for x, kid in zip(row.offsets, kids)]
    accent = offsets[0] + kids[0].box.accent if len(kids) == 1 else row.box.accent
    return Row(row.box._replace(accent=accent), offsets)


def row_of(kids, shows_spaces):
    """Each child behind all widths, spaces and italic corrections before it.

    An embellished operator has its spaces round it, where the row shows them; any other child has the italic correction of the
    child before it ahead of it.
    """
    offsets, end, italic = [], 0, 0
    for kid in kids:
        has_spaces = kid.is_embellished and shows_spaces
        end += italic if not kid.is_embellished else kid.before if has_spaces else 0
        offsets.append(end)
        end += kid.box.width + (kid.after if has_spaces else 0)
        italic = kid.box.italic
    accent = offsets[0] + kids[0].box.accent if len(kids) == 1 else halved(end)
    return Row(all_joined([kid.box for kid in kids])._replace(width=end, italic=italic, accent=accent), offsets)
