"""Turns a formula of MathML into an element of the tree format, and says where the format refuses it."""

import json
import re
from dataclasses import dataclass
from itertools import groupby

from companion.command import Fault
from companion.mathml import Node

TOKENS = {"mtext", "mi", "mn", "mo", "ms", "annotation"}
WHITE = "\t\n\f\r "
NAME = re.compile(r"[A-Za-z][A-Za-z0-9._:-]{0,63}", re.ASCII)
MOST_LEVELS = 60
MOST_ELEMENTS = 65_536
MOST_TEXT = 65_536
MOST_BYTES = 4_194_304


class Maker:
    """Makes the elements of one tree, and counts them and their bytes."""

    def __init__(self):
        self.elements = 0
        self.bytes = 0
        self.places = []

    def element(self, node, level=1, annotated=False):
        """The element that stands for a node, as a JSON object whose keys are in order; raises a Fault."""
        self.count(node.place, level)
        attributes = self.attributes(node)
        inside = annotated or node.name == "annotation-xml"
        text, kids = self.content(node, inside)
        self.take(node.place, checked_name(node.place, "element", node.name))
        self.take(node.place, text)
        children = [self.element(kid, level + 1, inside) for kid in kids]
        made = {"attributes": attributes, "children": children, "name": node.name, "text": text}
        return {key: value for key, value in made.items() if value}

    def count(self, place, level):
        self.elements += 1
        self.places.append(place)
        if level > MOST_LEVELS:
            raise Fault(f"{place}: stands at level {level}; a tree has at most {MOST_LEVELS}")
        if self.elements > MOST_ELEMENTS:
            raise Fault(f"{place}: is element {self.elements:,}; a tree has at most {MOST_ELEMENTS:,}")

    def take(self, place, text):
        """Counts the bytes of a text, and hands it back."""
        size = len(text.encode())
        if size > MOST_TEXT:
            raise Fault(f"{place}: a text of {size:,} bytes; a tree has at most {MOST_TEXT:,} in one")
        self.bytes += size
        if self.bytes > MOST_BYTES:
            raise Fault(f"{place}: names and texts up to here have {self.bytes:,} bytes; a tree has at most {MOST_BYTES:,}")
        return text

    def attributes(self, node):
        """The attributes by their names."""
        found = dict(sorted(node.attributes.items()))
        for name, value in found.items():
            self.take(node.place, checked_name(node.place, "attribute", name))
            self.take(node.place, value)
        return found

    def content(self, node, annotated):
        """The text of a token element, and the nodes below any other."""
        if node.name in TOKENS:
            for kid in node.children:
                if isinstance(kid, Node):
                    raise Fault(f"{kid.place}: <{kid.name}> inside <{node.name}>, which may have text alone")
            return "".join(text for _, text in node.children), []
        kids = []
        for kid in joined(node.children):
            if isinstance(kid, Node):
                kids.append(kid)
            elif not kid[1].strip(WHITE):
                continue
            elif annotated:
                kids.append(Node(kid[0], "mtext", {}, [kid]))
            else:
                raise Fault(f"{kid[0]}: text inside <{node.name}>, which may have elements alone")
        return "", kids


def joined(children):
    """The children of a node, with texts that stand side by side made one, which stands where more than white space begins."""
    made = []
    for is_node, run in groupby(children, lambda kid: isinstance(kid, Node)):
        texts = list(run)
        if is_node:
            made += texts
        else:
            place = next((place for place, text in texts if text.strip(WHITE)), texts[0][0])
            made.append((place, "".join(text for _, text in texts)))
    return made


def checked_name(place, what, name):
    """The name, where it is in the format's form."""
    if not NAME.fullmatch(name):
        raise Fault(f"{place}: {what} {name[:80]!r}: a name begins with an ASCII letter and has at most 64 "
                    "letters, digits, '-', '_', '.' and ':'")
    return name


@dataclass
class Tree:
    """A formula as an element of the tree format, and where each of its elements stands in its file, by id from 1."""

    root: dict
    places: list

    def place(self, number):
        return self.places[number - 1]

    def text(self):
        """The JSON text in its canonical form, with a line feed; raises a Fault."""
        text = json_text(self.root) + "\n"
        if len(text.encode()) > MOST_BYTES:
            raise Fault(f"{self.places[0]}: makes {len(text.encode()):,} bytes of JSON; a tree file has at most {MOST_BYTES:,}")
        return text


def json_text(value):
    """The JSON text of a value without any space."""
    return json.dumps(value, ensure_ascii=False, separators=(",", ":"))


def made_tree(node):
    """The tree of a formula; raises a Fault."""
    maker = Maker()
    return Tree(maker.element(node), maker.places)


def tree_text(node):
    """The JSON text of a formula's tree, in its canonical form, with a line feed; raises a Fault."""
    return made_tree(node).text()
