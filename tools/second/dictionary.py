"""The operator dictionary, a subset of MathML Core's Appendix B, and the operator lines of a metrics file.

The text of an operator is a tuple of one code point or two, () for an empty one, and OTHER for every other one.
"""

from typing import NamedTuple

from .metrics import BLOCK, INLINE

OTHER = None
PREFIX, INFIX, POSTFIX = "prefix", "infix", "postfix"
DEFAULT = "Default"
STRIKES = (0x338, 0x20D2)  # with one of these behind it a character counts as that character
BARE = (0x7C, 0x223C)  # as infix operators these have no category of another form


class Properties(NamedTuple):
    """What a category says of an operator; spaces are in 18ths of the font size."""

    lspace: int
    rspace: int
    stretchy: bool = False
    symmetric: bool = False
    largeop: bool = False
    movablelimits: bool = False


class Category(NamedTuple):
    """A category: the form and the characters that it has built in, in runs of code points, and its properties."""

    form: str | None
    runs: tuple
    properties: Properties


def one(*codes):
    return tuple((code, code) for code in codes)


ACCENT_RUNS = ((0x5E, 0x5F), *one(0x7E, 0xAF), (0x2C6, 0x2C7), *one(0x2DC, 0x203E), (0x23B4, 0x23B5), (0x23DC, 0x23DF))
INLINE_RUNS = (*one(0x2190, 0x2192, 0x2194, 0x21D0, 0x21D2, 0x21D4), *ACCENT_RUNS)

CATEGORIES = {
    DEFAULT: Category(None, (), Properties(5, 5)),
    "A": Category(INFIX, ((0x2190, 0x2195), (0x21D0, 0x21D5)), Properties(5, 5, stretchy=True)),
    "B": Category(INFIX, (*one(0x2B, 0x2D, 0x2F, 0xB1, 0xF7), (0x2212, 0x2213), (0x2227, 0x222A)), Properties(4, 4)),
    "C": Category(INFIX, (*one(0x25, 0x2A, 0xB7, 0xD7), (0x2217, 0x2218), *one(0x22C5)), Properties(3, 3)),
    "D": Category(PREFIX, (*one(0x21, 0x2B, 0x2D, 0xAC, 0xB1, 0x2200, 0x2203, 0x2207), (0x2212, 0x2213)), Properties(0, 0)),
    "E": Category(POSTFIX, (*one(0x21, 0x25, 0x27, 0xB0), (0x2032, 0x2033)), Properties(0, 0)),
    "F": Category(
        PREFIX, (*one(0x28, 0x5B), (0x7B, 0x7C), *one(0x2016, 0x2308, 0x230A, 0x27E8)), Properties(0, 0, stretchy=True, symmetric=True)
    ),
    "G": Category(
        POSTFIX, (*one(0x29, 0x5D), (0x7C, 0x7D), *one(0x2016, 0x2309, 0x230B, 0x27E9)), Properties(0, 0, stretchy=True, symmetric=True)
    ),
    "H": Category(PREFIX, ((0x222B, 0x2233),), Properties(3, 3, symmetric=True, largeop=True)),
    "I": Category(POSTFIX, ACCENT_RUNS, Properties(0, 0, stretchy=True)),
    "J": Category(
        PREFIX, ((0x220F, 0x2211), (0x22C0, 0x22C3)), Properties(3, 3, symmetric=True, largeop=True, movablelimits=True)
    ),
    "K": Category(INFIX, ((0x2061, 0x2064),), Properties(0, 0)),
    "L": Category(PREFIX, ((0x2145, 0x2146), *one(0x2202)), Properties(3, 0)),
    "M": Category(INFIX, (*one(0x2C), (0x3A, 0x3B)), Properties(0, 3)),
}


def text_of(letters):
    """The text of an operator that shows these code points."""
    if len(letters) < 2 or (len(letters) == 2 and max(letters) <= 0xFFFF):
        return tuple(letters)
    return OTHER


def base_text(text):
    return text[:1] if text and text[1:] and text[1] in STRIKES else text


def is_in(runs, code):
    return any(first <= code <= last for first, last in runs)


def built_in_category(text, form):
    if len(text) != 1:
        return DEFAULT
    found = (name for name, category in CATEGORIES.items() if category.form == form and is_in(category.runs, text[0]))
    return next(found, DEFAULT)


def own_category(metrics, text, form):
    """The category of a text in just this form: that of its operator line, else the built-in one, else Default."""
    line = metrics.operators.get((text, form))
    return line.category if line else built_in_category(text, form)


def category_of(metrics, text, form, is_fixed):
    """The category of an operator, whose form is fixed where an attribute gives it; else other forms are tried too."""
    if not text:
        return DEFAULT
    text = base_text(text)
    if len(text) == 1 and text[0] in BARE and form == INFIX and (text, form) not in metrics.operators:
        return DEFAULT
    if is_fixed:
        return own_category(metrics, text, form)
    tried = (own_category(metrics, text, other) for other in (form, INFIX, POSTFIX, PREFIX))
    return next((category for category in tried if category != DEFAULT), DEFAULT)


def axis_of(metrics, text):
    """The axis along which a text stretches: that of its first operator line, else that of the built-in list."""
    text = base_text(text)
    is_inline = bool(text) and len(text) == 1 and is_in(INLINE_RUNS, text[0])
    return metrics.axes.get(text, INLINE if is_inline else BLOCK)
