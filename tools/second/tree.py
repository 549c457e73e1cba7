"""Trees of elements. A node is never changed: an edit makes new nodes, and all others stay in the tree as they are."""

from .kinds import kind_of
from .words import byte_length

MOST_LEVELS, MOST_ELEMENTS = 60, 65536
LONGEST_TEXT = 65536  # bytes of a text or of a value
MOST_BYTES = 4194304  # of all names, attribute names, values and texts of a tree


class Node:
    """An element. How many elements and bytes it holds with all below it, and on how many levels, is counted once.

    What the element is among operators and its layouts are kept with it by `facts` and `layout`.
    """

    __slots__ = ("id", "name", "kind", "attributes", "text", "children", "count", "bytes", "levels", "facts", "layouts")

    def __init__(self, id, name, attributes, text, children):
        self.id, self.name, self.kind = id, name, kind_of(name)
        self.attributes, self.text, self.children = attributes, text, children
        self.count = 1 + sum(child.count for child in children)
        self.bytes = bytes_of(name, attributes, text) + sum(child.bytes for child in children)
        self.levels = 1 + max((child.levels for child in children), default=0)
        self.facts, self.layouts = None, {}

    def changed(self, **parts):
        """The same element but for some parts."""
        return Node(*(parts.get(part, getattr(self, part)) for part in ("id", "name", "attributes", "text", "children")))


class Tree:
    """A root, and the id that the next new element gets."""

    def __init__(self, root, next_id):
        self.root, self.next_id = root, next_id


def bytes_of(name, attributes, text):
    """The bytes of an element's own name, attribute names, values and text."""
    return sum(map(byte_length, (name, text, *attributes, *attributes.values())))
