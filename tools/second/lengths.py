"""Lengths that attributes write (CSS Values and Units), in millionths of a unit, and how many units of 1/1024 px they are."""

import re
from typing import NamedTuple

from .numbers import rounded
from .words import WHITE_SPACE, is_word

FORM = re.compile(r"([+-]?)([0-9]*)(?:\.([0-9]+))?(.*)", re.DOTALL)
MOST_DIGITS = 9  # before the point
FRACTION_DIGITS = 6  # of a fraction, those behind them are dropped
INCH = 96 * 1024  # units
UNITS = ("em", "ex", "px", "pt", "pc", "in", "cm", "mm", "q", "%")


class Length(NamedTuple):
    """A number in millionths, and the unit that it counts."""

    millionths: int
    unit: str


def length_of(text):
    """The length that a text writes, or None."""
    if text is None:
        return None
    sign, whole, fraction, name = FORM.fullmatch(text.strip(WHITE_SPACE)).groups()
    if len(whole) > MOST_DIGITS or not whole + (fraction or ""):
        return None
    millionths = int(whole or "0") * 10**FRACTION_DIGITS + int((fraction or "")[:FRACTION_DIGITS].ljust(FRACTION_DIGITS, "0"))
    unit = unit_at(millionths, name)
    return None if unit is None else Length(-millionths if sign == "-" else millionths, unit)


def unit_at(millionths, name):
    """The unit of that name, or None. Without a name it is px, and the number has to be 0."""
    if not name:
        return "px" if millionths == 0 else None
    return next((unit for unit in UNITS if is_word(name, unit)), None)


def size_of(unit, em, ex, percent_of):
    """One of a unit as a ratio of units of 1/1024 px: 1 in is 72 pt, 6 pc and 2.54 cm, and a q is a quarter of a mm."""
    return {
        "em": (em, 1),
        "ex": (ex, 1),
        "px": (1024, 1),
        "pt": (INCH, 72),
        "pc": (INCH, 6),
        "in": (INCH, 1),
        "cm": (100 * INCH, 254),
        "mm": (10 * INCH, 254),
        "q": (100 * INCH, 40 * 254),
        "%": (percent_of, 100),
    }[unit]


def resolved(length, em, ex, percent_of):
    """A length in units, rounded once; `em`, `ex` and what a percentage is of are in units too."""
    numerator, denominator = size_of(length.unit, em, ex, percent_of)
    return rounded(length.millionths * numerator, 10**6 * denominator)
