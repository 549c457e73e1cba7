"""`round`, `half`, `fits`, `word`: numbers, what can be stored, and words without the case of letters."""

from second.numbers import halved, is_stored, rounded
from second.words import is_word

from .faults import WRONG_VALUE, LineFault
from .values import Fields, is_whole


def round_ratio(_known, value):
    """The whole number nearest to a ratio, halves to the larger."""
    fields = Fields(value, "num", "den")
    return str(rounded(fields.within("num", -2**63, 2**63 - 1), fields.within("den", 1, 2**63 - 1)))


def half(_known, value):
    """Half of a number, rounded down."""
    if not is_whole(value):
        raise LineFault(WRONG_VALUE)
    return str(halved(value))


def fits(_known, value):
    """Whether each number of a box can be stored."""
    if not isinstance(value, list) or len(value) != 7 or not all(map(is_whole, value)):
        raise LineFault(WRONG_VALUE)
    return "yes" if all(map(is_stored, value)) else "no"


def word(_known, value):
    """Whether a text is a word but for the case of ASCII letters."""
    fields = Fields(value, "text", "word")
    return "yes" if is_word(fields.text("text"), fields.text("word")) else "no"


KINDS = {"round": round_ratio, "half": half, "fits": fits, "word": word}
