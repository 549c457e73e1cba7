"""Elements as the editor makes them. A place that waits to be filled is a gap: a space that stands alone in its row."""

from second.tree_print import value_of

TOKENS = {"mi", "mn", "mo", "ms", "mtext"}
# In an element of these a caret can stand between children.
ROWS = {"math", "mrow", "mstyle", "mpadded", "mphantom", "merror", "msqrt", "mtd", "menclose"}
# Each child of an element of these is a place of its own. A base may be a token by itself.
LED_BY_BASE = {"msub", "msup", "msubsup", "munder", "mover", "munderover", "mmultiscripts"}
SLOTTED = {"mfrac", "mroot", *LED_BY_BASE}
HIDDEN = {"annotation", "annotation-xml"}
GAP = {"class": "gap", "width": "0.5em", "height": "0.6em"}
# Operators whose limits stand over and under them.
WITH_LIMITS = set("∏∐∑⋀⋁⋂⋃") | {"lim", "max", "min", "sup", "inf"}
OPENING, CLOSING = set("([{⌈⌊⟨"), set(")]}⌉⌋⟩")


def gap():
    return {"attributes": dict(GAP), "name": "mspace"}


def element(name, *children, **attributes):
    made = {"attributes": attributes, "children": list(children), "name": name}
    return {key: value for key, value in made.items() if value}


def token(name, text, **attributes):
    made = {"attributes": attributes, "name": name, "text": text}
    return {key: value for key, value in made.items() if value}


def slot(*children):
    """A row with what fills it, or with a gap; a group is a row already."""
    if len(children) == 1 and children[0]["name"] == "mrow":
        return children[0]
    return element("mrow", *(children or (gap(),)))


def is_gap(node):
    return node.name == "mspace" and node.attributes.get("class") == "gap"


def is_row(node):
    """Whether a caret can stand between the children of a node."""
    return node.name in ROWS


def is_opening(node):
    return node.name == "mo" and node.text in OPENING


def is_closing(node):
    return node.name == "mo" and node.text in CLOSING


def is_group(node):
    """Whether a row that stands in another is what parentheses hold, with them."""
    return node.name == "mrow" and len(node.children) > 1 and is_opening(node.children[0]) and is_closing(node.children[-1])


def is_empty(row):
    """Whether nothing fills a row."""
    return all(is_gap(child) for child in row.children)


def values(nodes):
    """The elements of nodes as they go into a line of a script, gaps left out."""
    return [value_of(node) for node in nodes if not is_gap(node)]


def with_rows(value):
    """A tree as the editor edits it: what is numerator, denominator, script or index stands in a row, and an empty row has a
    gap."""
    name = value.get("name")
    if name in TOKENS or name in HIDDEN:
        return value
    children = [with_rows(child) for child in value.get("children", [])]
    if name in SLOTTED:
        children = [child if is_whole(name, place, child) else element("mrow", child) for place, child in enumerate(children)]
    if name in ROWS:
        children = [child for child in children if not is_gap_value(child)] or [gap()]
    made = {**value, "children": children}
    return made if children else {key: part for key, part in made.items() if key != "children"}


def is_whole(name, place, child):
    """Whether a child of an element with places needs no row round it."""
    kept = child.get("name") in {"mrow", "mprescripts", *HIDDEN}
    return kept or name in LED_BY_BASE and place == 0 and child.get("name") in TOKENS


def without_gaps(value):
    """The element without its gaps."""
    children = [without_gaps(child) for child in value.get("children", []) if not is_gap_value(child)]
    made = {**value, "children": children}
    return made if children else {key: part for key, part in made.items() if key != "children"}


def is_gap_value(value):
    return value.get("name") == "mspace" and value.get("attributes", {}).get("class") == "gap"
