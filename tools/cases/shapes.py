"""`target`, `shape`, `display_variant`: how far an operator is to reach, and what is made of a glyph."""

from second import shaping, targets
from second.operators import LARGEST_SIZE

from .boxes import letter_of, mark_words, metrics_of, numbers, pull_of, size_in, told
from .faults import wrong_type
from .values import Fields

AXES = ("block", "inline")


def target(_known, value):
    """What a stretched operator is to cover."""
    fields = Fields(value, "pull", "symmetric", "least", "most", "axis_height")
    pull, symmetric = pull_of(fields, "pull"), fields.flag("symmetric")
    least = fields.within("least", 0, LARGEST_SIZE)
    most = fields.within("most", least, LARGEST_SIZE) if fields.has("most") else None
    axis_height = fields.within("axis_height", -2**32, 2**32)
    if pull is None:
        raise wrong_type("pull")
    if pull[0] == "inline":
        return numbers([targets.sideways_width(pull[1], least, most), 0])
    return numbers(targets.upward_span(pull[1], pull[2], symmetric, least, most, axis_height))


def shape(known, value):
    """What is made of a character's glyph to reach a target along an axis."""
    fields = Fields(value, "metrics", "letter", "axis", "target", "size")
    metrics, letter = metrics_of(known, fields), letter_of(fields)
    axis, size = fields.choice("axis", AXES), size_in(fields)
    reach = fields.within("target", -2**40, 2**40)
    return shaped_words(metrics, shaping.shaped(metrics, metrics.place_of(ord(letter)), axis, reach, size), size)


def display_variant(known, value):
    """What a large operator is in display style."""
    fields = Fields(value, "metrics", "letter", "size")
    metrics, letter, size = metrics_of(known, fields), letter_of(fields), size_in(fields)
    return shaped_words(metrics, shaping.display_variant(metrics, metrics.place_of(ord(letter)), size), size)


def shaped_words(metrics, shaped, size):
    """A box, and what is drawn at the origin."""
    return told(numbers(shaped.box), mark_words(metrics, shaped.mark(0, 0, size)))


KINDS = {"target": target, "shape": shape, "display_variant": display_variant}
