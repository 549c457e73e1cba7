"""The tree that a JSON value stands for, or the first fault of its elements in document order."""

from .kinds import TEXT_ELEMENTS, kind_of
from .tree import LONGEST_TEXT, MOST_BYTES, MOST_ELEMENTS, MOST_LEVELS, Node, Tree, bytes_of
from .words import byte_length, is_name, is_white_space

KEYS = {"name", "attributes", "children", "text"}

NOT_AN_OBJECT, BAD_NAME, NOT_MATH, UNKNOWN_KEY, BAD_ATTRIBUTES, BAD_TEXT, BAD_CHILDREN, TOO_DEEP, TOO_MANY = range(1, 10)
TOO_LONG = 11


class TreeFault(Exception):
    """The number of the first faulty element in document order, and the kind of its first fault."""

    def __init__(self, element, kind):
        super().__init__(element, kind)
        self.element, self.kind = element, kind


def tree_of(value):
    """The tree of a whole value, whose first element has to be `math`."""
    root = Reader(is_whole=True).node_of(value, 1)
    return Tree(root, root.count + 1)


def part_of(value):
    """An element that is to stand in a tree: it needn't be `math`, and levels, places and ids are counted from 1."""
    return Reader(is_whole=False).node_of(value, 1)


class Reader:
    """Goes through the elements in document order, and counts them and the bytes that they hold."""

    def __init__(self, is_whole):
        self.is_whole, self.count, self.bytes = is_whole, 0, 0

    def node_of(self, value, level):
        self.count += 1
        place = self.count
        name, attributes, text, children = self.parts_of(value, level)
        return Node(place, name, attributes, text, tuple([self.node_of(child, level + 1) for child in children]))

    def parts_of(self, value, level):
        """The name, the attributes, the text and the values of the children of an element without a fault."""
        self.fault_if(level > MOST_LEVELS, TOO_DEEP)
        self.fault_if(self.count > MOST_ELEMENTS, TOO_MANY)
        self.fault_if(not isinstance(value, dict), NOT_AN_OBJECT)
        self.fault_if(not KEYS.issuperset(value), UNKNOWN_KEY)
        name, attributes = value.get("name"), value.get("attributes", {})
        text, children = value.get("text", ""), value.get("children", [])
        self.fault_if(not isinstance(name, str) or not is_name(name), BAD_NAME)
        self.fault_if(self.is_whole and self.count == 1 and name != "math", NOT_MATH)
        self.fault_if(not are_attributes(attributes), BAD_ATTRIBUTES)
        is_text = kind_of(name) in TEXT_ELEMENTS
        self.fault_if(not is_text_of(is_text, text), BAD_TEXT)
        self.fault_if(not isinstance(children, list) or (is_text and bool(children)), BAD_CHILDREN)
        text = text if is_text else ""
        self.bytes += bytes_of(name, attributes, text)
        self.fault_if(self.bytes > MOST_BYTES, TOO_LONG)
        return name, attributes, text, children

    def fault_if(self, is_so, kind):
        if is_so:
            raise TreeFault(self.count, kind)


def are_attributes(value):
    return isinstance(value, dict) and all(is_name(name) and is_short(text) for name, text in value.items())


def is_short(text):
    """Whether a value is a text, and not too long."""
    return isinstance(text, str) and byte_length(text) <= LONGEST_TEXT


def is_text_of(is_text_element, text):
    return is_short(text) and (is_text_element or is_white_space(text))
