"""The form of an operator by its place, its properties, and the axis along which it stretches (MathML Core 3.2.4)."""

from .dictionary import CATEGORIES, INFIX, POSTFIX, PREFIX, axis_of, category_of
from .facts import facts_of
from .kinds import FENCED, LED_BY_BASE, SCRIPTED


def form_at(facts, index, own):
    """The form of the child in flow at an index of an element with these facts, whose own form is given.

    A child that is no operator has infix. An operator has that of its attribute, else its parent's where it leads to the parent's
    core, else that of its place.
    """
    kid = facts_of(facts.flow[index])
    if kid.core is None:
        return INFIX
    if kid.core.form is not None:
        return kid.core.form
    return own if facts.core is not None and leads(facts.laid, kid, index) else form_by_place(facts, index)


def leads(laid, kid, index):
    """Whether a child leads to the core of its embellished parent."""
    return index == 0 if laid in LED_BY_BASE else not kid.is_space_like


def form_by_place(facts, index):
    """Of the children that aren't space-like the first is prefix and the last postfix, where there is more than one."""
    if facts.laid in FENCED:
        is_first, is_last = index <= facts.leading, index + 1 >= facts.inked_end
        return PREFIX if is_first and not is_last else POSTFIX if is_last and not is_first else INFIX
    return POSTFIX if facts.laid in SCRIPTED and index > 0 else INFIX


def properties_of(metrics, core, form):
    """Those of the dictionary for a core in a form; attributes of the core come first."""
    listed = CATEGORIES[category_of(metrics, core.text, form, core.form is not None)].properties
    said = {name: getattr(core, name) for name in ("stretchy", "symmetric", "largeop", "movablelimits")}
    return listed._replace(**{name: value for name, value in said.items() if value is not None})


def stretch_axis(metrics, facts, form):
    """The axis along which an element with these facts stretches in a form, or None where it doesn't."""
    if facts.core is None or not properties_of(metrics, facts.core, form).stretchy:
        return None
    return axis_of(metrics, facts.core.text)
