"""What an element is among operators: as what it is laid out, whether it is space-like, and its core.

An embellished operator has a core, the `mo` whose properties it takes (MathML Core 3.2.4.1 and 3.2.5).
"""

import re
import unicodedata
from typing import NamedTuple

from .dictionary import INFIX, POSTFIX, PREFIX, text_of
from .kinds import ANNOTATIONS, BLANK, JUDGED_BY_ALL, LED_BY_BASE, SHOW_FIRST, SHOW_NONE
from .words import WHITE_SPACE, is_word, truth_of


class Core(NamedTuple):
    """What an `mo` says: its text, and its attributes, None where they say nothing."""

    text: tuple | None
    form: str | None
    stretchy: bool | None
    symmetric: bool | None
    largeop: bool | None
    movablelimits: bool | None


class Facts(NamedTuple):
    """What is known of an element before it is laid out.

    `prescripts` is the place in flow of the first prescript; `leading` is how many children in flow stand before the first that
    isn't space-like, and `inked_end` how many there are up to the last one, that one included.
    """

    laid: str
    is_space_like: bool
    core: Core | None
    flow: tuple
    prescripts: int
    leading: int
    inked_end: int


def facts_of(node):
    """The facts of an element of a tree, which are found out once."""
    if node.facts is None:
        node.facts = facts_over(node, [facts_of(child) for child in node.children])
    return node.facts


def facts_over(node, kids):
    """An element from the facts of all its children."""
    counted = [kid.laid for kid in kids if kid.laid not in ANNOTATIONS]
    laid = node.kind if is_valid(node.kind, counted) else "mrow"
    flow = tuple(node.children[place] for place, kid in enumerate(kids) if is_in_flow(laid, kid.laid, place))
    inked = [place for place, child in enumerate(flow) if not facts_of(child).is_space_like]
    return Facts(
        laid=laid,
        is_space_like=laid in BLANK or (laid in JUDGED_BY_ALL and not inked),
        core=core_of(node, laid, flow, inked),
        flow=flow,
        prescripts=place_of_mark(counted) if laid == "mmultiscripts" else len(flow),
        leading=inked[0] if inked else len(flow),
        inked_end=inked[-1] + 1 if inked else 0,
    )


# ---- validity and flow


def is_valid(kind, kids):
    """Whether an element is valid over children, none of them an annotation, that are laid out as these kinds."""
    if kind in ("mfrac", "mroot", "msub", "msup", "munder", "mover"):
        return len(kids) == 2
    if kind in ("msubsup", "munderover"):
        return len(kids) == 3
    if kind == "mmultiscripts":
        return are_base_and_scripts(kids)
    if kind == "mtr":
        return all(kid == "mtd" for kid in kids)
    if kind == "mtable":
        return all(kid == "mtr" for kid in kids)
    return True


def are_base_and_scripts(kids):
    """A base, and then an even number of scripts on each side of at most one mark."""
    if not kids or kids[0] == "mprescripts" or kids.count("mprescripts") > 1:
        return False
    behind = place_of_mark(kids) - 1
    before = max(len(kids) - behind - 2, 0)
    return behind % 2 == 0 and before % 2 == 0


def place_of_mark(kids):
    """The place of the first `mprescripts`, else the end."""
    return kids.index("mprescripts") if "mprescripts" in kids else len(kids)


def is_in_flow(laid, kid, place):
    """Whether the child at a place, which is laid out as `kid`, is in flow in an element that is laid out as `laid`."""
    if laid in SHOW_NONE or (laid in SHOW_FIRST and place > 0) or kid in ANNOTATIONS:
        return False
    return not (laid == "mmultiscripts" and kid == "mprescripts")


# ---- the core


def core_of(node, laid, flow, inked):
    """An operator's own core, or that to which a child leads: the base, or the only child that isn't space-like."""
    if laid == "mo":
        return core_of_operator(node)
    if laid in LED_BY_BASE:
        return facts_of(flow[0]).core if flow else None
    if laid in JUDGED_BY_ALL and len(inked) == 1:
        return facts_of(flow[inked[0]]).core
    return None


def core_of_operator(node):
    says = node.attributes.get
    return Core(
        text=text_of([ord(letter) for letter in shown(node.text)]),
        form=form_of(says("form")),
        stretchy=truth_of(says("stretchy")),
        symmetric=truth_of(says("symmetric")),
        largeop=truth_of(says("largeop")),
        movablelimits=truth_of(says("movablelimits")),
    )


def form_of(text):
    """The form that an attribute writes, or None."""
    return next((form for form in (PREFIX, INFIX, POSTFIX) if text is not None and is_word(text, form)), None)


def shown(text):
    """The text that an element shows: trimmed, one space for each run of white space inside, in normal form C."""
    pieces = re.split(f"[{WHITE_SPACE}]+", text)
    return unicodedata.normalize("NFC", " ".join(piece for piece in pieces if piece))


def lead_place(facts):
    """The place in flow of the child that leads to the core of an embellished element."""
    return 0 if facts.laid in LED_BY_BASE else facts.leading
