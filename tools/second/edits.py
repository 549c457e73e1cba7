"""Edits of a tree: the reasons for which one is refused, in their order, and the tree that it makes."""

from typing import NamedTuple

from .kinds import TEXT_ELEMENTS
from .tree import LONGEST_TEXT, MOST_BYTES, MOST_ELEMENTS, MOST_LEVELS, Node, Tree
from .words import byte_length, is_name

LARGEST_NEXT_ID = 2**32


class Refused(Exception):
    """An edit isn't made; the reason is a word of the table of replies."""

    def __init__(self, reason):
        super().__init__(reason)
        self.reason = reason


def refuse_if(is_so, reason):
    if is_so:
        raise Refused(reason)


class SetText(NamedTuple):
    node: int
    text: str

    def check(self, path):
        refuse_if(path[-1].kind not in TEXT_ELEMENTS, "not-text")
        refuse_if(byte_length(self.text) > LONGEST_TEXT, "long")

    def made(self, path, next_id):
        return with_end(path, path[-1].changed(text=self.text))


class SetAttribute(NamedTuple):
    """Without a value the attribute is removed, if it is there."""

    node: int
    name: str
    value: str | None

    def check(self, path):
        refuse_if(not is_name(self.name), "name")
        refuse_if(self.value is not None and byte_length(self.value) > LONGEST_TEXT, "long")

    def made(self, path, next_id):
        attributes = {name: value for name, value in path[-1].attributes.items() if name != self.name}
        if self.value is not None:
            attributes[self.name] = self.value
        return with_end(path, path[-1].changed(attributes=attributes))


class Insert(NamedTuple):
    node: int
    index: int
    element: Node

    def check(self, path):
        refuse_if(path[-1].kind in TEXT_ELEMENTS, "text")
        refuse_if(self.index > len(path[-1].children), "index")

    def made(self, path, next_id):
        children = path[-1].children
        new = renumbered(self.element, next_id)
        return with_end(path, path[-1].changed(children=(*children[: self.index], new, *children[self.index :])))


class Remove(NamedTuple):
    node: int

    def check(self, path):
        refuse_if(len(path) == 1, "root")

    def made(self, path, next_id):
        return with_child(path[:-1], path[-1], ())


class Replace(NamedTuple):
    node: int
    element: Node

    def check(self, path):
        refuse_if(len(path) == 1, "root")

    def made(self, path, next_id):
        return with_child(path[:-1], path[-1], (renumbered(self.element, next_id),))


def edited(tree, edit):
    """The tree that an edit makes; raises Refused for the first reason that the tree gives against it."""
    path = path_to(tree.root, edit.node)
    refuse_if(path is None, "node")
    edit.check(path)
    root = edit.made(path, tree.next_id)
    element = getattr(edit, "element", None)
    next_id = tree.next_id + (element.count if element else 0)
    refuse_if(root.levels > MOST_LEVELS, "depth")
    refuse_if(root.count > MOST_ELEMENTS or root.bytes > MOST_BYTES, "many")
    refuse_if(next_id > LARGEST_NEXT_ID, "ids")
    return Tree(root, next_id)


def path_to(node, id):
    """The elements from the root to the one with an id, or None."""
    if node.id == id:
        return [node]
    for child in node.children:
        below = path_to(child, id)
        if below:
            return [node, *below]
    return None


def with_end(path, new):
    """The root where the last element of a path is another one."""
    return with_child(path[:-1], path[-1], (new,)) if len(path) > 1 else new


def with_child(path, old, new):
    """The root where elements stand in place of a child of the last element of a path."""
    parent = path[-1]
    place = next(place for place, child in enumerate(parent.children) if child is old)
    return with_end(path, parent.changed(children=(*parent.children[:place], *new, *parent.children[place + 1 :])))


def renumbered(node, id):
    """The same element with all below it, whose ids rise by one in document order from this on."""
    children, next_id = [], id + 1
    for child in node.children:
        children.append(renumbered(child, next_id))
        next_id += child.count
    return Node(id, node.name, node.attributes, node.text, tuple(children))
