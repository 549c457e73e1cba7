"""The canonical form of a tree: the text of its elements without any space, in one order of keys."""

from .json_text import print_json


def print_tree(tree):
    return print_json(value_of(tree.root))


def value_of(node):
    """The JSON value of an element with all below it: its keys in their order, and only those that tell something."""
    value = {}
    if node.attributes:
        value["attributes"] = dict(sorted(node.attributes.items()))
    if node.children:
        value["children"] = [value_of(child) for child in node.children]
    value["name"] = node.name
    if node.text:
        value["text"] = node.text
    return value
