"""The trees and the edits that are measured."""
import os

HERE = os.path.dirname(os.path.abspath(__file__))
PROGRAM = os.path.join(HERE, "..", "crates", "mathlay", "out", "mathlay")
METRICS = os.path.join(HERE, "..", "crates", "cases", "data", "sample.metrics")

# A row of 13 elements: x + 1/2 - b^2 (4), by name and text or children.
ROW = ("mrow", (
    ("mi", "x"), ("mo", "+"), ("mfrac", (("mn", "1"), ("mn", "2"))), ("mo", "-"), ("msup", (("mi", "b"), ("mn", "2"))),
    ("mo", "("), ("mn", "4"), ("mo", ")")))


def element(name, inside):
    """The JSON value of an element."""
    if isinstance(inside, str):
        return {"name": name, "text": inside}
    return {"name": name, "children": [element(*each) for each in inside]}


def tree(rows, group):
    """So many rows in a `math`, in groups or side by side."""
    every = (ROW,) * rows
    if group:
        every = tuple(("mrow", every[first:first + group]) for first in range(0, rows, group))
    return element("math", every)


def nested(pairs):
    """Parentheses with a subscript, each in a row that stands in the subscript of the one before. A row asks the subscript
    twice, the second time with a stretch, so that laid out afresh each time the work doubles with each row."""
    inside = {"name": "mi", "text": "x"}
    for _ in range(pairs):
        parenthesis = {"name": "mo", "text": "(", "attributes": {"maxsize": "1em"}}
        inside = {"name": "mrow", "children": [{"name": "msub", "children": [parenthesis, inside]}]}
    return {"name": "math", "children": [inside]}


def rows_of(value, first=1):
    """The ids of the rows of 13 elements, counted in document order."""
    ids, last = [], first
    for child in value.get("children", ()):
        below, after = rows_of(child, last + 1)
        ids += below
        last = after
    if len(value.get("children", ())) == len(ROW[1]) and value["name"] == "mrow":
        ids = [first]
    return ids, last


def edits(ids, count):
    """So many edits of four kinds, drawn from rows: a number, a fraction's rule, a script level, an operator's form."""
    state = 1

    def draw(below):
        nonlocal state
        state = (state * 6364136223846793005 + 1442695040888963407) % 2**64
        return (state >> 33) % below

    for _ in range(count):
        row, kind = ids[draw(len(ids))], draw(4)
        if kind == 0:
            yield {"op": "text", "node": row + 11, "text": str(draw(1000))}
        elif kind == 1:
            yield {"op": "attr", "node": row + 3, "name": "linethickness", "value": f"{draw(5)}px"}
        elif kind == 2:
            yield {"op": "attr", "node": row, "name": "scriptlevel", "value": str(draw(3))}
        else:
            yield {"op": "attr", "node": row + 2, "name": "form", "value": ("prefix", "infix", "postfix")[draw(3)]}
