"""Words for those who don't see the formula: what an element is, where the caret stands, and the whole formula."""

from editing.shapes import TOKENS, is_gap, is_row
from editing.tables import cells_of

WORDS = {
    "mfrac": "fraction", "msqrt": "square root", "mroot": "root", "msup": "superscript", "msub": "subscript",
    "msubsup": "subscript and superscript", "munder": "something below", "mover": "something above",
    "munderover": "something below and above", "mtable": "table", "mtr": "row", "mtd": "cell", "mrow": "group", "math": "formula",
}
PLACES = {
    "mfrac": ("the numerator", "the denominator"), "mroot": ("the root", "the index of the root"),
    "msup": ("the base", "the superscript"), "msub": ("the base", "the subscript"),
    "msubsup": ("the base", "the subscript", "the superscript"), "munder": ("the base", "what stands below"),
    "mover": ("the base", "what stands above"), "munderover": ("the base", "what stands below", "what stands above"),
}
SIGNS = {"−": "minus", "+": "plus", "=": "equals", "±": "plus or minus", "⋅": "times", "×": "times", "(": "open parenthesis",
         ")": "close parenthesis", "√": "root", "∑": "sum", "∫": "integral", "<": "less than", ">": "greater than",
         "\u2061": "of", "\u2062": "times", "\u2063": "comma", "\u2064": "plus"}
# Operators that are read and not seen.
UNSEEN = {"\u2061": "(of)", "\u2062": "(times)", "\u2063": "(comma)", "\u2064": "(plus)"}


def element(node):
    """An element as a line of the tree tells it."""
    if is_gap(node):
        return "gap"
    if node.name in TOKENS:
        return f"{node.name} {UNSEEN.get(node.text, node.text)}"
    spans = " ".join(f"{name} {node.attributes[name]}" for name in ("columnspan", "rowspan") if name in node.attributes)
    return f"{node.name} {spans}".strip()


def said(node):
    """An element in words."""
    if is_gap(node):
        return "a gap"
    if node.name in TOKENS:
        return SIGNS.get(node.text, node.text)
    return f"a {WORDS.get(node.name, node.name)}"


def place(map, caret, span):
    """Where the caret stands, or what is selected."""
    if span:
        chosen = map.nodes[span.row].children[span.start:span.end]
        return "selected: " + ", ".join(said(node) for node in chosen)
    node = map.nodes[caret.node]
    if node.name in TOKENS:
        return f"in {node.text}, behind {node.text[:caret.offset]}"
    where = inside(map, node)
    if map.is_gap(caret):
        return f"in {where}, which is empty"
    if caret.offset:
        return f"in {where}, behind {said(node.children[caret.offset - 1])}"
    return f"at the start of {where}"


def inside(map, row):
    """What a row is."""
    parent = map.parents[row.id]
    if parent is None:
        return "the formula"
    if row.name == "msqrt":
        return "the square root"
    if parent.name in PLACES and map.index(row.id) < len(PLACES[parent.name]):
        return PLACES[parent.name][map.index(row.id)]
    if row.name == "mtd" and parent.name == "mtr" and map.parents[parent.id] is not None:
        cell = next((cell for cell in cells_of(map.parents[parent.id]) if cell.node is row), None)
        return f"row {cell.row + 1}, column {cell.column + 1}" if cell else "a cell"
    return "a group"


def formula(node):
    """The whole formula in words."""
    if is_gap(node):
        return "gap"
    if node.name in TOKENS:
        return SIGNS.get(node.text, node.text)
    inner = [formula(child) for child in node.children]
    if is_row(node) and node.name != "msqrt" or node.name == "mtr":
        return " ".join(inner)
    if node.name == "mfrac" and len(inner) == 2:
        return f"fraction {inner[0]} over {inner[1]} end of fraction"
    if node.name == "msup" and len(inner) == 2:
        return f"{inner[0]} to the {inner[1]}"
    if node.name == "msub" and len(inner) == 2:
        return f"{inner[0]} sub {inner[1]}"
    name = WORDS.get(node.name, node.name)
    return f"{name} {' '.join(inner)} end of {name}" if inner else name
