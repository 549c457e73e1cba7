"""Whole numbers: how ratios are rounded, and which numbers can be stored."""

FARTHEST = 2**30  # units: the farthest that a stored number reaches, on both sides of 0
LARGEST_FONT = 2**20  # units: 1024 px


def rounded(numerator, denominator):
    """The whole number nearest to a ratio with a denominator above 0, and of two such numbers the larger one."""
    return (2 * numerator + denominator) // (2 * denominator)


def halved(number):
    """Half of a number, rounded down."""
    return number // 2


def is_stored(number):
    return -FARTHEST <= number <= FARTHEST


def is_font_size(size):
    return 0 <= size <= LARGEST_FONT
