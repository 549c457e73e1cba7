"""What the kinds on layout share: how boxes, places, marks and pulls are read and told."""

from second.boxes import Box
from second.numbers import is_stored
from second.placing import mark_words as words_at

from .answers import metrics_in
from .faults import out_of_range, wrong_type
from .values import is_truth, is_whole

STORED = 2**30
MOST_SIZE = 2**20
MOST_ITEMS = 65536
# How far the width and the accent of a row's box may reach that a root or a cell is laid out over.
WIDE = 2**50


def is_list(value):
    return isinstance(value, list)


def metrics_of(known, fields):
    """The metrics of the known file that `metrics` names."""
    fields.text("metrics")
    return metrics_in(known, fields)


def size_in(fields):
    """A font size."""
    return fields.within("size", 0, MOST_SIZE)


def stored_in(key, value):
    """A number that can be stored."""
    if not is_whole(value):
        raise wrong_type(key)
    if not -STORED <= value <= STORED:
        raise out_of_range(key)
    return value


def box_in(key, value, wide=False):
    """A box of seven numbers that can be stored; a wide one's width and accent may reach further."""
    if not is_list(value) or len(value) != 7 or not all(map(is_whole, value)):
        raise wrong_type(key)
    bounds = [WIDE if wide and place in (0, 6) else STORED for place in range(7)]
    if not all(-most <= number <= most for number, most in zip(value, bounds)):
        raise out_of_range(key)
    return Box(*value)


def box_of(fields, key, wide=False):
    """The box of a key."""
    return box_in(key, fields.value(key), wide)


def items_of(fields, key):
    """The items of a key, which aren't too many."""
    items = fields.of_type(key, is_list)
    if len(items) > MOST_ITEMS:
        raise out_of_range(key)
    return items


def boxes_of(fields, key):
    """The boxes of a key."""
    return [box_in(key, item) for item in items_of(fields, key)]


def stored_of(fields, key):
    """The numbers of a key, each of which can be stored."""
    return [stored_in(key, item) for item in items_of(fields, key)]


def pull_of(fields, key):
    """A pull: None where nothing pulls, else the axis and how far."""
    value = fields.value(key)
    if value == "free" and isinstance(value, str):
        return None
    if is_list(value) and value[:1] == ["block"] and len(value) == 3:
        return ("block", stored_in(key, value[1]), stored_in(key, value[2]))
    if is_list(value) and value[:1] == ["inline"] and len(value) == 2:
        return ("inline", stored_in(key, value[1]))
    raise wrong_type(key)


def letter_of(fields):
    """The one character of `letter`."""
    letter = fields.text("letter")
    if len(letter) != 1:
        raise out_of_range("letter")
    return letter


def flag_in(key, value):
    """A truth value among the items of a key."""
    if not is_truth(value):
        raise wrong_type(key)
    return value


# ---- telling

def told(*parts):
    """The parts of an answer."""
    return "; ".join(parts)


def numbers(values):
    """Numbers with spaces between; `-` where there are none."""
    return " ".join(map(str, values)) or "-"


def mark_words(metrics, mark):
    """A mark as in the lines of the output."""
    return " ".join(map(str, words_at(metrics, mark)))


def fits(values):
    return all(map(is_stored, values))
