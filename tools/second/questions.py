"""What an element asks of its children in flow, in two waves (MathML Core 3).

What stretches an element is None, `(BLOCK, ascent, descent)` or `(INLINE, width)` as a pull is, or for a row of a table
`(COLUMNS, total, widths)`, or `(SLOTS, total, starts_and_widths)` where a cell of the table spans. A question is a pair: the place of a child, counted from 0, and its context.
"""

from typing import NamedTuple

from .facts import facts_of
from .forms import form_at, properties_of, stretch_axis
from .rows import first_of_row, second_of_row
from .limits import first_of_limits, second_of_limits
from .spans import Cell, column_widths, first_columns, slots
from .styles import Style, child_style
from .tables import columns_of

COLUMNS, SLOTS = "columns", "slots"

# How elements ask their children.
NOTHING, PLAINLY, FOR_THE_BASE, AS_ROW, AS_LIMITS, AS_TABLE = "nothing", "plainly", "for the base", "as row", "as limits", "as table"

ASKING = {
    **dict.fromkeys("annotation annotation-xml mi mn mo ms mspace mtext".split(), NOTHING),
    **dict.fromkeys("mfrac msub msup msubsup mmultiscripts".split(), FOR_THE_BASE),
    **dict.fromkeys("munder mover munderover".split(), AS_LIMITS),
    **dict.fromkeys("mroot mtr".split(), PLAINLY),
    "mtable": AS_TABLE,
}


class Context(NamedTuple):
    """In what an element is laid out."""

    style: Style
    form: str
    stretch: tuple | None


def pull_of(stretch):
    """The pull on a row, a base or an operator: columns and slots pull none of them."""
    return None if stretch is None or stretch[0] in (COLUMNS, SLOTS) else stretch


def asking_of(metrics, facts, context):
    """How an element asks; limits that are moved stand beside the base as scripts."""
    asking = ASKING.get(facts.laid, AS_ROW)
    return FOR_THE_BASE if asking == AS_LIMITS and has_moved_limits(metrics, facts, context) else asking


def base_properties(metrics, facts, context):
    """The properties of the first child's core in the form in which that child is asked, or None."""
    core = facts_of(facts.flow[0]).core if facts.flow else None
    return None if core is None else properties_of(metrics, core, form_at(facts, 0, context.form))


def has_moved_limits(metrics, facts, context):
    """Whether the limits of a base with `movablelimits` are scripts: unless the element is in display style."""
    base = base_properties(metrics, facts, context)
    return not context.style.is_display and base is not None and base.movablelimits


def kid_axes(metrics, facts, form):
    """The axis along which each child in flow stretches in its form, or None."""
    return [stretch_axis(metrics, facts_of(kid), form_at(facts, index, form)) for index, kid in enumerate(facts.flow)]


def first_questions(metrics, node, context):
    facts, own = facts_of(node), pull_of(context.stretch)
    asking = asking_of(metrics, facts, context)
    everyone = [(place, None) for place in range(len(facts.flow))]
    if asking == AS_ROW:
        asked = first_of_row(kid_axes(metrics, facts, context.form), own)
    elif asking == AS_LIMITS:
        asked = first_of_limits(kid_axes(metrics, facts, context.form), own)
    elif asking == FOR_THE_BASE:
        asked = [(0, own), *everyone[1:]]
    else:
        asked = everyone
    return questions(metrics, node, context, asked)


def second_questions(metrics, node, context, answers):
    """Over the answers to the first wave, in their order."""
    facts, own = facts_of(node), pull_of(context.stretch)
    asking = asking_of(metrics, facts, context)
    asked = []
    if asking == AS_ROW:
        asked = second_of_row(kid_axes(metrics, facts, context.form), own, [answer.box for answer in answers])
    elif asking == AS_LIMITS:
        asked = second_of_limits(kid_axes(metrics, facts, context.form), own, [answer.box for answer in answers])
    elif asking == AS_TABLE:
        asked = list(enumerate(stretches_of_rows(answers)))
    return questions(metrics, node, context, asked)


def stretches_of_rows(answers):
    """The columns, or where some cell spans the slots, with which each row of a table is asked again."""
    if any(row.spans for row in answers):
        rows = cells_of_rows(answers)
        firsts = first_columns(rows)
        widths = column_widths(rows, firsts)
        return [stretch_of_slots(*slots(row, its, widths)) for row, its in zip(rows, firsts)]
    widths = columns_of([row.cells for row in answers])
    return [(COLUMNS, sum(widths), tuple(widths[: len(row.cells)])) for row in answers]


def stretch_of_slots(total, *rooms):
    return SLOTS, total, rooms


def cells_of_rows(answers):
    """The cells of each row of a table, which tells what they span only where one does."""
    return [row.spans or tuple(map(Cell, row.cells)) for row in answers]


def questions(metrics, node, context, asked):
    """Each child that is asked, in its context."""
    facts = facts_of(node)
    return [
        (place, Context(child_style(metrics, context.style, node, place), form_at(facts, place, context.form), stretch))
        for place, stretch in asked
    ]
