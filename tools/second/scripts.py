"""Scripts behind a base (MathML Core 3.4.1). Places count x from the box's start, and y downward from its baseline."""

from typing import NamedTuple

from .boxes import Box


class Corner(NamedTuple):
    """A corner of a glyph at a font size, at which a kern is looked up."""

    glyph: int
    corner: str
    size: int


class Corners(NamedTuple):
    """The corners that meet where scripts stand: two of the base and one of each script, None for what is no single glyph."""

    base_sub: Corner | None = None
    sub: Corner | None = None
    base_sup: Corner | None = None
    sup: Corner | None = None


class Scripted(NamedTuple):
    """The box, and the places of both scripts, (0, 0) for one that isn't there."""

    box: Box
    sub: tuple = (0, 0)
    sup: tuple = (0, 0)


# ---- how far scripts are moved


def sub_shift(metrics, base, sub, size):
    """A subscript alone: as usual, or so that its ink isn't too high or its baseline is low enough below the base's ink."""
    return max(
        metrics.constant("SubscriptShiftDown", size),
        sub.ink_ascent - metrics.constant("SubscriptTopMax", size),
        metrics.constant("SubscriptBaselineDropMin", size) + base.ink_descent,
    )


def sup_shift(metrics, base, sup, is_cramped, size):
    """A superscript alone."""
    return max(
        metrics.constant("SuperscriptShiftUpCramped" if is_cramped else "SuperscriptShiftUp", size),
        metrics.constant("SuperscriptBottomMin", size) + sup.ink_descent,
        base.ink_ascent - metrics.constant("SuperscriptBaselineDropMax", size),
    )


def pair_shifts(metrics, base, sub, sup, is_cramped, size):
    """How far a pair is moved up and down: the superscript makes up for a lack of gap as far as it may, the subscript for the rest."""
    up, down = sup_shift(metrics, base, sup, is_cramped, size), sub_shift(metrics, base, sub, size)
    bottom, top = up - sup.ink_descent, sub.ink_ascent - down
    lack = max(metrics.constant("SubSuperscriptGapMin", size) - (bottom - top), 0)
    rise = max(min(metrics.constant("SuperscriptBottomMaxWithSubscript", size) - bottom, lack), 0)
    return up + rise, down + lack - rise


# ---- kerns


def kern_at(metrics, corner, height):
    """The kern of a corner at a height above its own baseline."""
    return metrics.kern(corner.glyph, corner.corner, height, corner.size) if corner else 0


def sup_kern(metrics, corners, base, sup, up):
    """At the foot of the superscript's ink and at the top of the base's, the larger one of both corners' kerns together."""
    heights = up - sup.ink_descent, base.ink_ascent
    return max(kern_at(metrics, corners.base_sup, height) + kern_at(metrics, corners.sup, height - up) for height in heights)


def sub_kern(metrics, corners, base, sub, down):
    """At the top of the subscript's ink and at the foot of the base's, likewise."""
    heights = sub.ink_ascent - down, -base.ink_descent
    return max(kern_at(metrics, corners.base_sub, height) + kern_at(metrics, corners.sub, height + down) for height in heights)


# ---- where they stand


def sub_start(base, is_large):
    """Behind the base, or under the lean of a large operator."""
    return base.width - base.italic if is_large else base.width


def sup_start(base, is_large):
    """Behind the base and its lean, which the width of a large operator holds already."""
    return base.width if is_large else base.width + base.italic


def ending_at(metrics, box, end, size):
    """A box whose parts end there, with the space after scripts."""
    return box.of_width(end + metrics.constant("SpaceAfterScript", size))


def with_sub(metrics, base, is_large, sub, size, corners=Corners()):
    down = sub_shift(metrics, base, sub, size)
    x = sub_start(base, is_large) + sub_kern(metrics, corners, base, sub, down)
    return Scripted(ending_at(metrics, base.joined(sub.raised(-down)), x + sub.width, size), sub=(x, down))


def with_sup(metrics, base, is_large, is_cramped, sup, size, corners=Corners()):
    up = sup_shift(metrics, base, sup, is_cramped, size)
    x = sup_start(base, is_large) + sup_kern(metrics, corners, base, sup, up)
    return Scripted(ending_at(metrics, base.joined(sup.raised(up)), x + sup.width, size), sup=(x, -up))


def with_sub_and_sup(metrics, base, is_large, is_cramped, sub, sup, size, corners=Corners()):
    up, down = pair_shifts(metrics, base, sub, sup, is_cramped, size)
    sub_x = sub_start(base, is_large) + sub_kern(metrics, corners, base, sub, down)
    sup_x = sup_start(base, is_large) + sup_kern(metrics, corners, base, sup, up)
    box = base.joined(sub.raised(-down)).joined(sup.raised(up))
    end = max(sub_x + sub.width, sup_x + sup.width)
    return Scripted(ending_at(metrics, box, end, size), sub=(sub_x, down), sup=(sup_x, -up))
