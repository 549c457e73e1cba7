"""Styles: how deep an element stands, in which style it is set, and its font size (MathML Core, Appendix A and 4.3 to 4.5)."""

import re
from typing import NamedTuple

from .facts import facts_of
from .kinds import SCRIPTED
from .lengths import length_of, resolved
from .numbers import rounded
from .words import is_word, truth_of

DEEPEST = 15
LEVEL = re.compile(r"([+-]?)([0-9]{1,3})")


class Style(NamedTuple):
    """The base size is in units of 1/1024 px, and is given at the base depth."""

    base: int
    base_depth: int
    depth: int
    is_display: bool
    is_cramped: bool
    is_rtl: bool  # from right to left


INITIAL = Style(base=16384, base_depth=0, depth=0, is_display=False, is_cramped=False, is_rtl=False)


def root_style(metrics, root):
    """That of the topmost element, which is in display style where its `display` is `block`."""
    is_block = is_word(root.attributes.get("display", ""), "block")
    return by_attributes(metrics, INITIAL, root.attributes, INITIAL._replace(is_display=is_block))


def child_style(metrics, style, parent, index):
    """That of the child in flow at an index of a parent with this style."""
    child = facts_of(parent).flow[index]
    return by_attributes(metrics, style, child.attributes, by_name(child.kind, by_place(style, parent, index)))


# ---- by the place below the parent, whose name decides


def by_place(style, parent, index):
    kind = parent.kind
    has_accent = truth_of(parent.attributes.get("accent")) is True
    has_accentunder = truth_of(parent.attributes.get("accentunder")) is True
    is_subscript = facts_of(parent).laid == "mmultiscripts" and index % 2 == 1
    return style._replace(
        depth=style.depth + levels_below(kind, index, style.is_display, is_accent(kind, index, has_accent, has_accentunder)),
        is_display=style.is_display and not is_compact(kind, index),
        is_cramped=style.is_cramped or is_cramped_below(kind, index, has_accent, is_subscript),
    )


def is_accent(kind, index, has_accent, has_accentunder):
    """Whether a child is an accent, below or above its base; such a child keeps the depth."""
    if kind == "munder":
        return index == 1 and has_accentunder
    if kind == "mover":
        return index == 1 and has_accent
    return kind == "munderover" and ((index == 1 and has_accentunder) or (index == 2 and has_accent))


def levels_below(kind, index, is_display, is_accent):
    """How many levels deeper than its parent a child stands."""
    if kind == "mfrac":
        return 0 if is_display else 1
    if kind == "mroot":
        return 2 if index == 1 else 0
    return 1 if kind in SCRIPTED and index > 0 and not is_accent else 0


def is_compact(kind, index):
    """Whether a child isn't in display style, whatever its parent is in."""
    return kind == "mfrac" or (kind == "mroot" and index == 1) or (kind in SCRIPTED and index > 0)


def is_cramped_below(kind, index, has_accent, is_subscript):
    """Whether a child is cramped, whatever its parent is."""
    if kind in ("mfrac", "msub", "msubsup"):
        return index == 1
    if kind == "mmultiscripts":
        return is_subscript
    return kind in ("mover", "munderover") and index == 0 and has_accent


# ---- by its own name and attributes


def by_name(kind, style):
    if kind in ("msqrt", "mroot"):
        return style._replace(is_cramped=True)
    return style._replace(is_display=False) if kind == "mtable" else style


def by_attributes(metrics, parent, attributes, style):
    """What `displaystyle`, `scriptlevel`, `dir` and `mathsize` make of a style, below a parent of this style."""
    is_display = truth_of(attributes.get("displaystyle"))
    is_rtl = direction_of(attributes.get("dir"))
    level = level_of(attributes.get("scriptlevel"), parent.depth)
    style = style._replace(
        is_display=style.is_display if is_display is None else is_display,
        depth=min(DEEPEST, style.depth if level is None else level),
        is_rtl=style.is_rtl if is_rtl is None else is_rtl,
    )
    return by_size(metrics, font_size(metrics, parent), attributes.get("mathsize"), style)


def direction_of(text):
    """Whether a direction is from right to left, or None where an attribute writes none."""
    if text is None:
        return None
    return True if is_word(text, "rtl") else False if is_word(text, "ltr") else None


def level_of(text, parent_depth):
    """The depth that a level writes: its number, or with a sign the parent's depth and that many levels more or fewer."""
    written = LEVEL.fullmatch(text) if text is not None else None
    if written is None:
        return None
    sign, digits = written.groups()
    if sign:
        return max(0, parent_depth + int(sign + digits))
    return int(digits)


def by_size(metrics, parent_size, text, style):
    """A size is given at the depth at which it stands, and is relative to the parent's; a negative one counts as absent."""
    length = length_of(text)
    if length is None or length.millionths < 0:
        return style
    return style._replace(base=resolved(length, parent_size, metrics.ex(parent_size), parent_size), base_depth=style.depth)


# ---- the font size


def font_size(metrics, style):
    """The base size at the style's depth, rounded once."""
    numerator, denominator = scale_at(metrics, style.depth)
    given_numerator, given_denominator = scale_at(metrics, style.base_depth)
    return rounded(style.base * numerator * given_denominator, denominator * given_numerator)


def scale_at(metrics, depth):
    """How large a font is at a depth, as a ratio: the font's own two percents, then 71 hundredths for each level more."""
    if depth == 0:
        return 1, 1
    percent = metrics.percent("ScriptPercentScaleDown" if depth == 1 else "ScriptScriptPercentScaleDown")
    more = max(depth - 2, 0)
    return percent * 71**more, 100 * 100**more
