"""Where a caret may stand in a formula, which place a point means, and what a selection covers."""

from dataclasses import dataclass

from companion.marks import Box, Glyph
from editing.shapes import HIDDEN, TOKENS, is_gap, is_group, is_row

# Tokens between whose characters a caret can stand.
MANY_STOPS = {"mn", "mtext", "ms"}
# How high a caret is at least, in units.
LEAST_RISE = 12_288


@dataclass(frozen=True)
class Caret:
    """A place: in a row before its child of this index, or behind the last; or in a token before the character of this
    index."""

    node: int
    offset: int


@dataclass(frozen=True)
class Span:
    """Children of a row that are selected: from one, up to and without another."""

    row: int
    start: int
    end: int


class Map:
    """The elements of a tree by their ids, and the places of a caret in it in their order."""

    def __init__(self, root):
        self.root, self.nodes, self.parents = root, {}, {}
        self.order = []
        waiting = [(root, None)]
        while waiting:
            node, parent = waiting.pop()
            self.nodes[node.id], self.parents[node.id] = node, parent
            self.order.append(node)
            waiting += [(child, node) for child in reversed(node.children)]
        self.stops = list(stops_of(root))
        self.numbers = {stop: number for number, stop in enumerate(self.stops)}

    def path(self, id):
        """The elements from the root to one."""
        found = []
        node = self.nodes[id]
        while node is not None:
            found.append(node)
            node = self.parents[node.id]
        return found[::-1]

    def index(self, id):
        """The place of an element among its parent's children."""
        return next(place for place, child in enumerate(self.parents[id].children) if child.id == id)

    def settled(self, caret):
        """The caret at the end of a token, or in a row that has only a gap, as the stop that it means."""
        node = self.nodes.get(caret.node)
        if node is None:
            return self.stops[0]
        if node.name in TOKENS:
            if 0 < caret.offset < len(node.text) and caret in self.numbers:
                return caret
            row = self.parents[node.id]
            place = Caret(row.id, self.index(node.id) + (caret.offset > 0))
            return self.settled(place)
        place = Caret(node.id, min(caret.offset, len(node.children)))
        if place in self.numbers:
            return place
        return Caret(node.id, 0) if Caret(node.id, 0) in self.numbers else self.near(node.id, caret.offset > 0)

    def near(self, id, is_behind=False):
        """The stop before the element that holds one, or behind it, where a caret can't stand in it."""
        node = self.nodes[id]
        while (parent := self.parents[node.id]) is not None:
            if is_row(parent):
                return self.settled(Caret(parent.id, self.index(node.id) + is_behind))
            node = parent
        return self.stops[0]

    def moved(self, caret, by):
        """The stop so many further, or the same at an end."""
        number = self.numbers[caret] + by
        return self.stops[number] if 0 <= number < len(self.stops) else caret

    def gaps(self):
        return [stop for stop in self.stops if self.is_gap(stop)]

    def is_gap(self, caret):
        """Whether a caret stands in a row with only a gap."""
        node = self.nodes[caret.node]
        return len(node.children) == 1 and is_gap(node.children[0])

    def span(self, anchor, caret):
        """What is selected between two stops, or none: children of the lowest row round both."""
        if anchor is None or anchor == caret:
            return None
        one, other = self.path(anchor.node), self.path(caret.node)
        depth = sum(1 for a, b in zip(one, other) if a is b)
        while not is_row(one[depth - 1]):
            depth -= 1
        row = one[depth - 1]
        ends = [self.reach(row, path[depth:], stop) for path, stop in ((one, anchor), (other, caret))]
        start, end = min(start for start, _ in ends), max(end for _, end in ends)
        if start == end or all(is_gap(child) for child in row.children[start:end]):
            return None
        return Span(row.id, start, end)

    def reach(self, row, below, stop):
        """From where to where a stop within a row reaches: a stop in one of its children takes that whole."""
        if not below:
            return stop.offset, stop.offset
        place = self.index(below[0].id)
        return place, place + 1


def stops_of(node, in_row=False):
    """The stops of a row, or those inside of another element, in document order. In a group that stands in a row there is none
    before its opening sign nor behind its closing one: those of the row stand there."""
    if node.name in TOKENS:
        if node.name in MANY_STOPS:
            yield from (Caret(node.id, place) for place in range(1, len(node.text)))
        return
    if node.name in HIDDEN:
        return
    row = is_row(node)
    group = in_row and is_group(node)
    if row and not group:
        yield Caret(node.id, 0)
        if len(node.children) == 1 and is_gap(node.children[0]):
            return
    children = node.children[:1] if node.name in ("semantics", "maction") else node.children
    for place, child in enumerate(children):
        yield from stops_of(child, row)
        if row and not (group and place + 1 == len(children)):
            yield Caret(node.id, place + 1)


class Page:
    """What the engine shows: the box of each element, and the places of its glyphs."""

    def __init__(self, marks):
        self.marks, self.boxes, self.glyphs = marks, {}, {}
        own = None
        for mark in marks:
            if isinstance(mark, Box):
                own = mark.id
                self.boxes[own] = mark
                self.glyphs[own] = []
            elif isinstance(mark, Glyph):
                self.glyphs[own].append(mark)

    def caret(self, map, stop):
        """Where a caret is drawn, as x, y of its top, and height; none where its row has no box."""
        node, box = map.nodes[stop.node], self.boxes.get(stop.node)
        if box is None:
            return None
        if node.name in TOKENS:
            glyphs = self.glyphs[node.id]
            x = glyphs[stop.offset].x if len(glyphs) == len(node.text) else box.x + box.width * stop.offset // len(node.text)
            return x, box.y - box.ascent, box.ascent + box.descent
        sides = [self.boxes.get(node.children[place].id) if 0 <= place < len(node.children) else None
                 for place in (stop.offset - 1, stop.offset)]
        if map.is_gap(stop) and sides[1]:
            return sides[1].x + sides[1].width // 2, *self.rise(box)
        left, right = sides
        if left and right:
            x = (left.x + left.width + right.x) // 2
        else:
            x = left.x + left.width if left else right.x if right else box.x
        beside = [side for side in sides if side]
        if not beside:
            return x, *self.rise(box)
        top = min(side.y - side.ascent for side in beside)
        return x, top, max(side.y + side.descent for side in beside) - top

    def rise(self, box):
        """From where to how far below a caret reaches in a box, which may have no height."""
        height = box.ascent + box.descent
        more = max(LEAST_RISE - height, 0) // 2
        return box.y - box.ascent - more, height + 2 * more

    def hit(self, x, y):
        """The id of the last deepest box that holds a point, or none. What is inside an element comes behind it, so the last
        box that holds the point is deepest."""
        return next((id for id in reversed(self.boxes) if holds(self.boxes[id], x, y)), None)

    def stop_at(self, map, x, y):
        """The stop that a point means: the nearest one in what it hits, or else the nearest one of all."""
        hit = self.hit(x, y)
        stops = map.stops if hit is None else around(map, map.nodes[hit])
        return min(stops, key=lambda stop: self.distance(map, stop, x, y))

    def distance(self, map, stop, x, y):
        place = self.caret(map, stop)
        if place is None:
            return float("inf")
        across, top, height = place
        above_or_below = max(top - y, y - top - height, 0)
        return abs(across - x) + 2 * above_or_below

    def areas(self, map, span):
        """The areas of what is selected, as x, y, width and height. Two elements select what stands from one to the other below
        the lowest element that holds both; one element selects itself."""
        chosen = map.nodes[span.row].children[span.start:span.end] if span else []
        boxes = [self.boxes[child.id] for child in chosen if child.id in self.boxes]
        return [(box.x, box.y - box.ascent, box.width, box.ascent + box.descent) for box in boxes]


def around(map, node):
    """The stops in an element; for one that has none, those beside it, or those of what holds it."""
    parent = map.parents[node.id]
    own = list(stops_of(node, parent is not None and is_row(parent)))
    if parent is not None and is_row(parent) and (not is_row(node) or is_group(node)):
        place = map.index(node.id)
        own += [map.settled(Caret(parent.id, place)), map.settled(Caret(parent.id, place + 1))]
    return own or (around(map, parent) if parent is not None else map.stops)


def holds(box, x, y):
    return box.x <= x < box.x + box.width and box.y - box.ascent <= y < box.y + box.descent
