"""Leaves of text: the glyphs of their characters side by side (MathML Core 3.2.1.1 and C.1)."""

from typing import NamedTuple

from .boxes import EMPTY, Box, all_joined
from .facts import shown
from .glyphs import GlyphMark, glyph_box
from .words import is_word

TOKENS = frozenset("mi mn ms mtext".split())

# Of each alphabet its first and last letter, and the italic form of the first one; the first alphabet that has a letter counts.
# The italic h is the Planck constant, and no capital letter stands between rho and sigma.
ALPHABETS = (
    (0x68, 0x68, 0x210E),
    (0x41, 0x5A, 0x1D434),
    (0x61, 0x7A, 0x1D44E),
    (0x391, 0x3A1, 0x1D6E2),
    (0x3A3, 0x3A9, 0x1D6F4),
    (0x3B1, 0x3C9, 0x1D6FC),
)


class Leaf(NamedTuple):
    """A box with spaces before and after it, in units, and its marks."""

    box: Box
    marks: tuple
    before: int = 0
    after: int = 0


def letters_of(node):
    """The code points of the text that an element shows."""
    return [ord(letter) for letter in shown(node.text)]


def token(metrics, node, size):
    """A token; the only letter of an `mi` is italic, unless `mathvariant` is `normal`."""
    letters = letters_of(node)
    if len(letters) != 1:
        return word(metrics, letters, size)
    return lone_letter(metrics, shown_letter(node, letters[0]), size)


def token_glyph(metrics, node):
    """The place of the glyph of a token of one character, else None. An operator has none."""
    letters = letters_of(node) if node.kind in TOKENS else ()
    return metrics.place_of(shown_letter(node, letters[0])) if len(letters) == 1 else None


def shown_letter(node, letter):
    """The character that shows the only letter of a token."""
    is_slanted = node.kind == "mi" and not is_word(node.attributes.get("mathvariant", ""), "normal")
    return italic_of(letter) if is_slanted else letter


def italic_of(letter):
    return next((italic + letter - first for first, last, italic in ALPHABETS if first <= letter <= last), letter)


def lone_letter(metrics, letter, size):
    """One character, which keeps its glyph's italic correction and accent."""
    place = metrics.place_of(letter)
    box = on_line(metrics, glyph_box(metrics, place, size), size)
    return Leaf(box, (GlyphMark(0, 0, size, place),))


def word(metrics, letters, size):
    """Several characters, without an italic correction and with the accent in the middle; without any there is nothing."""
    if not letters:
        return Leaf(EMPTY, ())
    boxes = [glyph_box(metrics, metrics.place_of(letter), size) for letter in letters]
    marks, x = [], 0
    for letter, box in zip(letters, boxes):
        marks.append(GlyphMark(x, 0, size, metrics.place_of(letter)))
        x += box.width
    return Leaf(on_line(metrics, all_joined(boxes), size).of_width(x), tuple(marks))


def on_line(metrics, box, size):
    """A box of that ink which is as high and as deep as a line of text."""
    return box._replace(ascent=metrics.line_ascent(size), descent=metrics.line_descent(size))
