"""What the attributes of a tree say of how its elements look, beside where they stand: colours, and what encloses them."""

import re
from dataclasses import dataclass

COLOUR = re.compile(r"#[0-9A-Fa-f]{3,8}|[A-Za-z]{3,30}|(?:rgb|rgba|hsl|hsla)\([0-9.,%/ deg]+\)")


@dataclass
class Look:
    """The colour of an element's own marks, the colour behind its box, and its notations; empty where there is none."""

    colour: str
    background: str
    notation: str


def looks_of(root):
    """Of each element with a look its look, by its id. A tree that is no tree has none."""
    found, number = {}, 0

    def walk(element, above):
        nonlocal number
        number += 1
        if not isinstance(element, dict):
            return
        attributes = element.get("attributes") if isinstance(element.get("attributes"), dict) else {}
        colour = coloured(attributes.get("mathcolor")) or above
        background = coloured(attributes.get("mathbackground"))
        notation = attributes.get("notation", "") if element.get("name") == "menclose" else ""
        if colour or background or notation:
            found[number] = Look(colour, background, str(notation))
        children = element.get("children", [])
        for child in children if isinstance(children, list) else []:
            walk(child, colour)

    walk(root, "")
    return found


def coloured(value):
    """A colour as SVG reads it, or nothing."""
    word = str(value or "").strip()
    return word if COLOUR.fullmatch(word) and word != "transparent" else ""
