"""The command `gen`: a tree and edits that a seed decides, and what is left of them."""

import re

from .edits import Refused, SetAttribute, SetText
from .session import Session
from .tree_reading import tree_of

SEED = re.compile(r"[0-9]{1,20}")
COUNT = re.compile(r"[0-9]{1,5}")
MOST_EDITS = 20000
ROWS, ROW_ELEMENTS = 64, 13
FORMS = ("prefix", "infix", "postfix")


def seed_and_count(seed, count):
    """The two numbers that words write, or None."""
    if not SEED.fullmatch(seed) or not COUNT.fullmatch(count):
        return None
    return (int(seed), int(count)) if int(seed) < 2**64 and 1 <= int(count) <= MOST_EDITS else None


class Draws:
    """Numbers of 64 bits, one after the other."""

    def __init__(self, seed):
        self.state = seed

    def below(self, bound):
        self.state = (self.state * 6364136223846793005 + 1442695040888963407) % 2**64
        return (self.state >> 33) % bound


def drawn_edit(draws):
    """An edit of one of the rows: of a text, the thickness of a rule, a level or a form."""
    row, choice = 2 + ROW_ELEMENTS * draws.below(ROWS), draws.below(4)
    if choice == 0:
        return SetText(row + 11, str(draws.below(1000)))
    if choice == 1:
        return SetAttribute(row + 3, "linethickness", f"{draws.below(5)}px")
    if choice == 2:
        return SetAttribute(row, "scriptlevel", str(draws.below(3)))
    return SetAttribute(row + 2, "form", FORMS[draws.below(3)])


def element(name, *children, text=""):
    return {"name": name, "text": text, "children": list(children)}


def leaf(name, text):
    return element(name, text=text)


def row_element():
    """One row of the tree, of 13 elements."""
    return element(
        "mrow",
        leaf("mi", "x"),
        leaf("mo", "+"),
        element("mfrac", leaf("mn", "1"), leaf("mn", "2")),
        leaf("mo", "-"),
        element("msup", leaf("mi", "b"), leaf("mn", "2")),
        leaf("mo", "("),
        leaf("mn", "4"),
        leaf("mo", ")"),
    )


def generated(metrics, seed, count):
    """The six lines that are written after so many edits; raises OutOfRange where the tree is out of range at the start."""
    session = Session(metrics, tree_of(element("math", *(row_element() for _ in range(ROWS)))))
    draws, made = Draws(seed), 0
    for _ in range(count):
        try:
            session.edit(drawn_edit(draws))
            made += 1
        except Refused:
            pass
    box, boxes = session.layout.box, sum(line.startswith(b"box ") for line in session.page().splitlines())
    told = ("edits", count), ("ok", made), ("width", box.width), ("ascent", box.ascent), ("descent", box.descent), ("boxes", boxes)
    return "".join(f"{word} {number}\n" for word, number in told).encode()
