"""Pairs of scripts, before a base and behind it. Places count x from the box's start, and y downward from its baseline."""

from typing import NamedTuple

from .boxes import Box, all_joined
from .scripts import pair_shifts


class Pair(NamedTuple):
    """The boxes of a subscript and a superscript, and whether they stand before the base."""

    sub: Box
    sup: Box
    is_before: bool


class Multi(NamedTuple):
    """The box, the place of the base, and those of the scripts, for each pair the subscript first."""

    box: Box
    base: tuple
    scripts: list


def multi(metrics, base, is_large, is_cramped, pairs, size):
    """Each pair has a room of its own, with the space after scripts: ahead of prescripts, and behind the others.

    All scripts are moved as far as those that are moved farthest.
    """
    space = metrics.constant("SpaceAfterScript", size)
    shifts = [pair_shifts(metrics, base, pair.sub, pair.sup, is_cramped, size) for pair in pairs]
    up, down = max((each[0] for each in shifts), default=0), max((each[1] for each in shifts), default=0)
    leans = leans_of(base, is_large, pairs)
    ahead = sum(space + room(pair, lean) for pair, lean in zip(pairs, leans) if pair.is_before)
    starts, width = starts_of(pairs, leans, space, ahead + base.width)
    moved = [box for pair in pairs for box in (pair.sub.raised(-down), pair.sup.raised(up))]
    spots = [spot for sub_x, sup_x in starts for spot in ((sub_x, down), (sup_x, -up))]
    return Multi(all_joined([base, *moved]).of_width(width), (ahead, 0), spots)


def starts_of(pairs, leans, space, end):
    """Where both scripts of each pair begin, with the base's end there, and where the last pair ends with its space."""
    starts, ahead = [], 0
    for pair, lean in zip(pairs, leans):
        start = ahead + space if pair.is_before else end
        sub_x, sup_x = script_starts(pair, lean)
        starts.append((start + sub_x, start + sup_x))
        if pair.is_before:
            ahead += space + room(pair, lean)
        else:
            end += space + room(pair, lean)
    return starts, end


def leans_of(base, is_large, pairs):
    """How far the italic correction of the base moves each pair: the first one behind it alone.

    Of a large operator it moves the subscript back, of any other base the superscript on.
    """
    leans, own = [], (-base.italic, 0) if is_large else (0, base.italic)
    for pair in pairs:
        leans.append(own)
        own = own if pair.is_before else (0, 0)
    return leans


def script_starts(pair, lean):
    """Where both begin in their room: prescripts end together, the others begin together but for the lean."""
    if pair.is_before:
        widest = max(pair.sub.width, pair.sup.width)
        return widest - pair.sub.width, widest - pair.sup.width
    return lean


def room(pair, lean):
    """How far both reach in their room."""
    sub_x, sup_x = script_starts(pair, lean)
    return max(sub_x + pair.sub.width, sup_x + pair.sup.width)
