"""`token`, `operator`, `space`: elements without children."""

from second import operators, spaces, tokens
from second.facts import facts_of

from .answers import FORM_LETTERS, only_child
from .boxes import fits, mark_words, metrics_of, numbers, pull_of, size_in, told
from .faults import NOT_AN_ELEMENT, LineFault
from .values import Fields


def token(known, value):
    """A text."""
    fields = Fields(value, "metrics", "element", "size")
    metrics, size = metrics_of(known, fields), size_in(fields)
    node = only_child(fields.value("element"))
    return leaf_words(metrics, tokens.token(metrics, node, size))


def operator(known, value):
    """An operator in a form, under a pull."""
    fields = Fields(value, "metrics", "element", "size", "display", "form", "pull")
    metrics, size = metrics_of(known, fields), size_in(fields)
    node = only_child(fields.value("element"))
    if node.name != "mo":
        raise LineFault(NOT_AN_ELEMENT)
    display, form = fields.flag("display"), fields.choice("form", FORM_LETTERS)
    pull = pull_of(fields, "pull")
    return leaf_words(metrics, operators.operator(metrics, node, facts_of(node).core, form, display, pull, size))


def space(known, value):
    """A space."""
    fields = Fields(value, "metrics", "element", "size")
    metrics, size = metrics_of(known, fields), size_in(fields)
    box = spaces.space(metrics, only_child(fields.value("element")), size)
    return numbers(box) if fits(box) else "range"


def leaf_words(metrics, leaf):
    """A box, the spaces before and behind, and the marks; a word where a number of them can't be stored."""
    around = leaf.before, leaf.after
    if not fits([*leaf.box, *around]) or not all(mark.fits() for mark in leaf.marks):
        return "range"
    return told(numbers(leaf.box), numbers(around), *(mark_words(metrics, mark) for mark in leaf.marks))


KINDS = {"token": token, "operator": operator, "space": space}
