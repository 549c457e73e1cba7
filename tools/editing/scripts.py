"""Fractions and scripts of what stands before the caret."""

from editing.places import Caret
from editing.plan import Plan
from editing.shapes import TOKENS, WITH_LIMITS, element, slot, values

SCRIPTS = {"_": ("msub", "munder"), "^": ("msup", "mover")}
# Of an element with one script or two: the place of the lower one, the name with both, the place of the upper one.
JOINED = {"msub": (1, "msubsup", None), "msup": (None, "msubsup", 1), "msubsup": (1, "msubsup", 2),
          "munder": (1, "munderover", None), "mover": (None, "munderover", 1), "munderover": (1, "munderover", 2)}


def fraction(editor):
    def make(items):
        top, bottom = slot(*items), slot()
        return element("mfrac", top, bottom), bottom if items else top
    editor.wrap(editor.before(is_one=False), make)


def script(editor, key):
    """A script of what stands before the caret. Behind a base with the other script it joins that; where there is such a script
    already, the caret goes into it."""
    row, start, end = taken = editor.before(is_one=True)
    base = editor.map.nodes[row].children[start] if row is not None and end == start + 1 else None
    if base is not None and not editor.span and base.name in JOINED and join(editor, base, key):
        return

    def make(items):
        script = slot()
        limits = len(items) == 1 and items[0].get("text") in WITH_LIMITS
        body = items[0] if items and items[0]["name"] in TOKENS and len(items) == 1 else slot(*items)
        return element(SCRIPTS[key][limits], body, script), script if items else body
    editor.wrap(taken, make)


def join(editor, base, key):
    """A second script for a base that has one, or the caret into the one that is asked for."""
    under, both, over = JOINED[base.name]
    place = under if key == "_" else over
    if place is not None:
        row = base.children[place]
        editor.go(editor.map.settled(Caret(row.id, len(row.children))))
        return True
    script, parts = slot(), values(base.children)
    parts[1:] = [script, parts[1]] if key == "_" else [parts[1], script]
    whole = element(both, *parts, **base.attributes)
    plan = Plan(editor.document.tree)
    plan.replace(base.id, whole)
    editor.make(plan, Caret(plan.id_of(script), 0))
    return True
