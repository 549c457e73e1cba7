"""The leaf of an operator: its spaces, and what stretches it or makes it large (MathML Core 3.2.4.3).

A pull is None, or a tuple of an axis and what is to be covered along it: `(BLOCK, ascent, descent)` or `(INLINE, width)`.
"""

from .forms import properties_of
from .glyphs import glyph_reach
from .lengths import length_of, resolved
from .metrics import BLOCK, INLINE
from .numbers import halved, rounded
from .shaping import display_variant, shaped
from .targets import sideways_width, upward_span
from .tokens import Leaf, letters_of, lone_letter, word

LARGEST_SIZE = 2**28  # units: no least or largest size counts as more


def operator(metrics, node, core, form, is_display, pull, size):
    """An `mo` with this core in this form."""
    properties = properties_of(metrics, core, form)
    letters = letters_of(node)
    if len(letters) == 1:
        leaf = lone_operator(metrics, node.attributes, letters[0], properties, is_display, pull, size)
    else:
        leaf = word(metrics, letters, size)
    before = space(metrics, node.attributes, "lspace", properties.lspace, size)
    return leaf._replace(before=before, after=space(metrics, node.attributes, "rspace", properties.rspace, size))


def lone_operator(metrics, attributes, letter, properties, is_display, pull, size):
    """One character: what pulls it comes before what makes it large, and neither leaves it a token."""
    if pull is None:
        if properties.largeop and is_display:
            return large(metrics, letter, properties.symmetric, size)
        return lone_letter(metrics, letter, size)
    axis, *covered = pull
    least, most = sizes(metrics, attributes, letter, axis, size)
    if axis == INLINE:
        glyph = shaped(metrics, metrics.place_of(letter), INLINE, sideways_width(*covered, least, most), size)
        return lowered(glyph, 0, size)
    ascent, descent = upward_span(*covered, properties.symmetric, least, most, metrics.constant("AxisHeight", size))
    glyph = shaped(metrics, metrics.place_of(letter), BLOCK, ascent + descent, size)
    return lowered(glyph, drop(glyph.box, ascent - descent), size)


def large(metrics, letter, is_symmetric, size):
    """Large, in display style; one that is symmetric has its middle on the axis."""
    glyph = display_variant(metrics, metrics.place_of(letter), size)
    return lowered(glyph, drop(glyph.box, 2 * metrics.constant("AxisHeight", size)) if is_symmetric else 0, size)


def drop(box, rise):
    """How far down ink has to go to reach that much more above the baseline than below it."""
    return halved(box.ink_ascent - box.ink_descent - rise)


def lowered(glyph, depth, size):
    """Ink that is moved down so far; nothing but ink counts of its height."""
    ink_ascent, ink_descent = glyph.box.ink_ascent - depth, glyph.box.ink_descent + depth
    box = glyph.box._replace(ascent=ink_ascent, descent=ink_descent, ink_ascent=ink_ascent, ink_descent=ink_descent)
    return Leaf(box, (glyph.mark(0, depth, size),))


# ---- what attributes give


def length_in(metrics, attributes, name, percent_of, size):
    """The length that an attribute writes, in units at a font size, or None."""
    length = length_of(attributes.get(name))
    return None if length is None else resolved(length, size, metrics.ex(size), percent_of)


def space(metrics, attributes, name, eighteenths, size):
    """That of the dictionary, of which a percentage is, unless an attribute gives one."""
    listed = rounded(eighteenths * size, 18)
    given = length_in(metrics, attributes, name, listed, size)
    return listed if given is None else given


def sizes(metrics, attributes, letter, axis, size):
    """The least size, and the largest one or None. A percentage is of how far the glyph reaches as it is."""
    reach = glyph_reach(metrics, metrics.place_of(letter), axis, size)
    least, most = (length_in(metrics, attributes, name, reach, size) for name in ("minsize", "maxsize"))
    least = min(max(reach if least is None else least, 0), LARGEST_SIZE)
    return least, None if most is None else min(max(most, least), LARGEST_SIZE)
