"""The layout of a tree, from the root down and back up: each element asks its children in flow, and is made of what they answer.

Every layout that is made on the way has to be in range. A node keeps its layouts, by context: no node changes, so they stay right
for as long as the metrics are the same.
"""

from .dictionary import INFIX
from .equations import outcome_of
from .facts import facts_of
from .numbers import is_font_size, is_stored
from .questions import Context, first_questions, second_questions
from .styles import font_size, root_style


class OutOfRange(Exception):
    """A number of a layout can't be stored."""


def lay_tree(metrics, tree):
    """The layout of a tree."""
    return lay(metrics, tree.root, root_context(metrics, tree))


def root_context(metrics, tree):
    """The root is infix, and nothing stretches it."""
    return Context(root_style(metrics, tree.root), INFIX, None)


def lay(metrics, node, context):
    """The layout of an element in a context."""
    made = node.layouts.get(context)
    if made is None:
        if not is_font_size(font_size(metrics, context.style)):
            raise OutOfRange
        made = node.layouts[context] = lay_anew(metrics, node, context)
    return made


def lay_anew(metrics, node, context):
    """Of several answers of one child the last counts."""
    flow = facts_of(node).flow
    first = first_questions(metrics, node, context)
    answers = [lay(metrics, flow[place], asked) for place, asked in first]
    second = second_questions(metrics, node, context, answers)
    answers += [lay(metrics, flow[place], asked) for place, asked in second]
    last = {place: answer for (place, _), answer in zip(first + second, answers)}
    made = outcome_of(metrics, node, context, [last[place] for place in range(len(flow))])
    if not fits(made):
        raise OutOfRange
    return made


def fits(made):
    """Whether every number of a layout can be stored."""
    numbers = (*made.box, made.before, made.after, *made.cells)
    places = (number for offset in made.offsets for number in offset)
    return all(map(is_stored, numbers)) and all(map(is_stored, places)) and all(mark.fits() for mark in made.marks)


def needed(metrics, tree):
    """All layouts that are made for that of a tree, each once: pairs of an element's id and a context."""
    found, waiting = set(), [(tree.root, root_context(metrics, tree))]
    lay(metrics, *waiting[0])
    while waiting:
        node, context = waiting.pop()
        if (node.id, context) not in found:
            found.add((node.id, context))
            flow, first = facts_of(node).flow, first_questions(metrics, node, context)
            answers = [lay(metrics, flow[place], asked) for place, asked in first]
            asked_all = first + second_questions(metrics, node, context, answers)
            waiting += [(flow[place], asked) for place, asked in asked_all]
    return found
