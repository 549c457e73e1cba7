"""Where the elements of a tree file begin. The file is JSON; it may be no tree."""

import json
from json.decoder import scanstring

WHITE = " \t\n\r"
SCAN = json.JSONDecoder().scan_once


def places_of(text, element):
    """Where the element with this number begins in the text of a tree file, and its name; or none where it has none."""
    try:
        root = node_at(text, skipped(text, 0))[0]
    except (ValueError, IndexError, StopIteration, RecursionError):
        return None
    count, waiting = 0, [root]
    while waiting:
        node = waiting.pop()
        count += 1
        if count == element:
            return node.begin, node.name
        waiting += reversed(node.children)
    return None


class Node:
    """A value that stands where an element is to stand."""

    def __init__(self, begin):
        self.begin, self.name, self.children = begin, None, []


def skipped(text, place):
    """The next place that isn't white space."""
    while place < len(text) and text[place] in WHITE:
        place += 1
    return place


def node_at(text, place):
    """The value that begins at a place, as a node, and where it ends; raises ValueError."""
    node = Node(place)
    if text[place] != "{":
        return node, SCAN(text, place)[1]
    place = skipped(text, place + 1)
    while text[place] != "}":
        key, place = scanstring(text, place + 1, True)
        place = skipped(text, skipped(text, place) + 1)
        if key == "children" and text[place] == "[":
            node.children, place = nodes_at(text, place)
        else:
            value, place = SCAN(text, place)
            if key == "name":
                node.name = value
        place = skipped(text, place)
        if text[place] == ",":
            place = skipped(text, place + 1)
    return node, place + 1


def nodes_at(text, place):
    """The values of an array as nodes, and where it ends."""
    nodes, place = [], skipped(text, place + 1)
    while text[place] != "]":
        node, place = node_at(text, place)
        nodes.append(node)
        place = skipped(text, place)
        if text[place] == ",":
            place = skipped(text, place + 1)
    return nodes, place + 1
