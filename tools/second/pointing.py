"""What a pointer meets, and what is selected from one element to another. Only elements in flow count."""

import re

from .facts import facts_of
from .placing import PlacedBox, placed

COORDINATE = re.compile("-?[0-9]{1,11}")
ID = re.compile("[0-9]{1,10}")
LARGEST_ID = 2**32 - 1


class NoNode(Exception):
    """No element in flow has an id."""

    def __init__(self, id):
        super().__init__(id)
        self.id = id


def coordinates_of(*words):
    """The numbers of two coordinates, or None where a word is none."""
    return tuple(map(int, words)) if all(map(COORDINATE.fullmatch, words)) else None


def ids_of(*words):
    """The numbers of two ids, or None where a word is none."""
    if not all(map(ID.fullmatch, words)):
        return None
    ids = tuple(map(int, words))
    return ids if max(ids) <= LARGEST_ID else None


def boxes_of(layout):
    return [item for item in placed(layout) if isinstance(item, PlacedBox)]


# ---- a point


def hit(layout, x, y):
    """The id of the element that a point meets, or None: the last in document order of the deepest boxes that hold the point.

    A box is deepest where none of an element inside holds the point. All of these come behind it, so the last box that holds the
    point is the last deepest one.
    """
    holding = [item.node.id for item in boxes_of(layout) if holds(item, x, y)]
    return holding[-1] if holding else None


def holds(item, x, y):
    """A box has its left and its upper edge, and not its right and its lower one."""
    box = item.box
    return item.x <= x < item.x + box.width and item.y - box.ascent <= y < item.y + box.descent


# ---- a selection


def selection(layout, first, second):
    """The areas of what is selected, each as x and y of its upper left corner, width and height."""
    ways = [way_to(layout.node, id) for id in (first, second)]
    for id, way in zip((first, second), ways):
        if way is None:
            raise NoNode(id)
    chosen = chosen_of(*ways)
    return [area_of(item) for item in boxes_of(layout) if any(item.node is node for node in chosen)]


def way_to(node, id):
    """The elements in flow from one to the one with an id, or None."""
    if node.id == id:
        return [node]
    for kid in facts_of(node).flow:
        below = way_to(kid, id)
        if below:
            return [node, *below]
    return None


def chosen_of(way, other):
    """The lowest element over two where it is one of them, else its children in flow from the one side to the other."""
    shared = sum(one is another for one, another in zip(way, other))
    lowest = way[shared - 1]
    if shared in (len(way), len(other)):
        return [lowest]
    flow = facts_of(lowest).flow
    places = sorted(next(place for place, kid in enumerate(flow) if kid is each[shared]) for each in (way, other))
    return flow[places[0] : places[1] + 1]


def area_of(item):
    box = item.box
    return item.x, item.y - box.ascent, box.width, box.ascent + box.descent
