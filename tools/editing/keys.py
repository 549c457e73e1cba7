"""What each key does: the edits that it makes, and where the caret goes."""

import unicodedata

from editing import erasing, names, scripts, symbols, tables
from editing.document import Refusal
from editing.places import Caret
from editing.plan import Plan
from editing.scripts import SCRIPTS
from editing.shapes import (CLOSING, WITH_LIMITS, element, is_closing, is_gap, is_group, is_opening, is_row, slot, token,
                            values)

DIGITS = set("0123456789")


class Editor:
    """A document with a caret, a selection and a name that is being typed."""

    def __init__(self, document):
        self.document, self.anchor, self.name = document, None, None

    @property
    def map(self):
        return self.document.map

    @property
    def caret(self):
        return self.document.caret

    @property
    def span(self):
        return self.map.span(self.anchor, self.caret)

    def do(self, event):
        """Does what an event asks for; raises Refusal, and then nothing was done."""
        if "point" in event:
            x, y = event["point"]
            self.go(self.document.page.stop_at(self.map, x, y), event.get("extend"))
        elif "choose" in event:
            self.choose(event["choose"])
        elif "paste" in event:
            self.paste(event["paste"])
        else:
            self.press(event["key"], event.get("extend", False))

    def press(self, key, extend=False):
        """A key: one character, or the name of a key."""
        if self.name is not None and names.press(self, key):
            return
        if key in MOVES:
            MOVES[key](self, extend)
        elif key in ACTS:
            ACTS[key](self)
        elif len(key) == 1:
            self.type(key)
        else:
            raise Refusal(f"The key {key} does nothing here.")

    # Moves

    def go(self, caret, extend=False):
        """Puts the caret somewhere; with `extend` what lies between is selected."""
        self.anchor = (self.anchor or self.caret) if extend else None
        self.document.caret = caret

    def step(self, by, extend):
        span = self.span
        if span and not extend:
            row = span.row
            self.go(self.map.settled(Caret(row, span.start if by < 0 else span.end)))
        else:
            self.go(self.map.moved(self.caret, by), extend)

    def to_end(self, by, extend):
        """To an end of the row."""
        node = self.map.nodes[self.caret.node]
        row = node if is_row(node) else self.map.parents[node.id]
        stops = [stop for stop in self.map.stops if stop.node == row.id]
        self.go(stops[0] if by < 0 else stops[-1], extend)

    def to_whole_end(self, by, extend):
        self.go(self.map.stops[0 if by < 0 else -1], extend)

    def rise(self, by, extend):
        """Up or down: to the nearest stop of the next place above or below in what holds the caret."""
        here = self.document.page.caret(self.map, self.caret)
        path = self.map.path(self.caret.node)
        for parent, child in zip(path[-2::-1], path[:0:-1]):
            target = beside(self.map, parent, child, by)
            if target is not None:
                inside = [stop for stop in self.map.stops if target in self.map.path(stop.node)] or [self.behind(parent)]
                x, page = here[0] if here else 0, self.document.page
                return self.go(min(inside, key=lambda stop: abs((page.caret(self.map, stop) or (0,))[0] - x)), extend)
        return None

    def behind(self, node):
        """The stop behind an element, in the row that holds it."""
        path = self.map.path(node.id)
        place = next(place for place in range(len(path) - 2, -1, -1) if is_row(path[place]))
        return self.map.settled(Caret(path[place].id, self.map.index(path[place + 1].id) + 1))

    def next_gap(self, by, _extend=False):
        """To the next gap, from the last one to the first one."""
        gaps = self.map.gaps()
        if not gaps:
            raise Refusal("No place is left to be filled.")
        number = self.map.numbers[self.caret]
        ahead = [stop for stop in gaps if (self.map.numbers[stop] - number) * by > 0]
        others = gaps if by > 0 else gaps[::-1]
        ahead = ahead if by > 0 else ahead[::-1]
        self.go((ahead or others)[0])

    def select_all(self, _extend=False):
        self.anchor = self.map.stops[0]
        self.document.caret = self.map.stops[-1]

    def choose(self, id):
        """Selects an element of the tree, or puts the caret into it where it is a gap or all."""
        node = self.map.nodes.get(id)
        if node is None:
            raise Refusal("That element isn't there any more.")
        parent = self.map.parents[id]
        place = self.map.index(id) if parent is not None else 0
        ends = [Caret(parent.id, place), Caret(parent.id, place + 1)] if parent is not None and not is_gap(node) else []
        if ends and all(end in self.map.numbers for end in ends):
            self.anchor, self.document.caret = ends
        else:
            self.go(self.map.settled(Caret(id if is_row(node) else (parent or node).id, 0)))

    def leave(self):
        """Out of the row to the right, past what holds it."""
        node = self.map.nodes[self.caret.node]
        if self.map.parents[node.id] is not None:
            self.go(self.behind(node))

    # Changes

    def make(self, plan, caret):
        """Carries a plan out."""
        self.document.change(plan.edits, caret)
        self.anchor = None

    def undo(self):
        self.document.undo()
        self.anchor = None

    def redo(self):
        self.document.redo()
        self.anchor = None

    def place(self, plan):
        """The row and the index at which something is to stand, where what is selected is taken out and a token is parted. The
        third is a gap's or a chosen element's id that the first new element replaces, or none."""
        span = self.span
        if span:
            chosen = self.map.nodes[span.row].children[span.start:span.end]
            for child in chosen[1:]:
                plan.remove(child.id)
            return span.row, span.start, chosen[0].id
        node = self.map.nodes[self.caret.node]
        if is_row(node):
            return node.id, self.caret.offset, node.children[0].id if self.map.is_gap(self.caret) else None
        return self.parted(plan, node)

    def parted(self, plan, node):
        """The place within a token, which becomes two."""
        row, left, right = self.map.parents[node.id], node.text[:self.caret.offset], node.text[self.caret.offset:]
        if not is_row(row):
            pieces = [token(node.name, left), token(node.name, right)]
            whole = slot(*pieces)
            plan.replace(node.id, whole)
            return plan.id_of(whole), 1, None
        place = self.map.index(node.id)
        plan.text(node.id, left)
        plan.insert(row.id, place + 1, token(node.name, right, **node.attributes))
        return row.id, place + 1, None

    def put(self, items, inside=None):
        """Puts elements at the caret, in the place of what is selected; the caret goes behind them, or into the row `inside`."""
        plan = Plan(self.document.tree)
        row, index, old = self.place(plan)
        for number, item in enumerate(items):
            if number == 0 and old is not None:
                plan.replace(old, item)
            else:
                plan.insert(row, index + number, item)
        self.make(plan, Caret(plan.id_of(inside), 0) if inside else Caret(row, index + len(items)))

    def type(self, key):
        """A character."""
        if key == "\\":
            self.name = ""
        elif key == "/":
            scripts.fraction(self)
        elif key in SCRIPTS:
            scripts.script(self, key)
        elif key == " ":
            self.leave()
        elif key == "&":
            tables.next_cell(self)
        elif key in DIGITS or key == "." and self.is_beside_number():
            self.digit(key)
        elif unicodedata.category(key)[0] == "L" or unicodedata.category(key) == "Nd" or key in symbols.IDENTIFIERS:
            self.put([token("mi" if not key.isdigit() else "mn", key)])
        elif unicodedata.category(key)[0] in "SP":
            self.sign(symbols.KEYS.get(key, key))
        else:
            raise Refusal(f"The character U+{ord(key):04X} isn't taken.")

    def sign(self, text):
        """An operator. A closing one makes a group of what stands from the opening one on, so that both grow with that alone."""
        node, end = self.map.nodes[self.caret.node], self.caret.offset
        start = None
        if text in CLOSING and is_row(node) and not self.span and not self.map.is_gap(self.caret):
            start = open_sign(node, end, self.map.parents[node.id])
        if start is None:
            return self.put([token("mo", text)])
        chosen = node.children[start:end]
        plan = Plan(self.document.tree)
        plan.replace(chosen[0].id, element("mrow", *values(chosen), token("mo", text)))
        for child in chosen[1:]:
            plan.remove(child.id)
        return self.make(plan, Caret(node.id, start + 1))

    def is_beside_number(self):
        """Whether the caret stands in a number or behind one."""
        if self.span:
            return False
        node = self.map.nodes[self.caret.node]
        before = node.children[self.caret.offset - 1] if is_row(node) and self.caret.offset else node
        return before.name == "mn"

    def digit(self, key):
        """A digit joins the number in which, behind which or before which the caret stands."""
        node, offset = self.map.nodes[self.caret.node], self.caret.offset
        plan = Plan(self.document.tree)
        if not self.span and node.name == "mn":
            plan.text(node.id, node.text[:offset] + key + node.text[offset:])
            return self.make(plan, Caret(node.id, offset + 1))
        beside = [] if self.span or not is_row(node) else node.children
        if offset and offset <= len(beside) and beside[offset - 1].name == "mn":
            plan.text(beside[offset - 1].id, beside[offset - 1].text + key)
            return self.make(plan, Caret(node.id, offset))
        if offset < len(beside) and beside[offset].name == "mn":
            plan.text(beside[offset].id, key + beside[offset].text)
            return self.make(plan, Caret(beside[offset].id, 1))
        return self.put([token("mn", key)])

    def before(self, is_one):
        """What stands before the caret and is taken by a key, as a row's id and its first and last index: what is selected; else
        with `is_one` the last element, or a group in parentheses; else all back to an operator."""
        span = self.span
        if span:
            return span.row, span.start, span.end
        node = self.map.nodes[self.caret.node]
        if not is_row(node):
            row = self.map.parents[node.id]
            return (row.id, self.map.index(node.id), self.map.index(node.id) + 1) if is_row(row) else (None, 0, 0)
        end = start = self.caret.offset
        if self.map.is_gap(self.caret):
            return node.id, 0, 0
        while start > 0 and not (is_one and start < end):
            last = node.children[start - 1]
            if is_closing(last):
                opening = opening_of(node.children, start - 1)
                if opening is None:
                    break
                start = opening
            elif last.name == "mo" and not (is_one and is_large(last)):
                break
            else:
                start -= 1
        return node.id, start, end

    def wrap(self, taken, make):
        """Puts an element in the place of what a key takes, or at the caret where that is nothing. `make` gives the element, and
        the row in it into which the caret goes."""
        row, start, end = taken
        if row is None or start == end:
            made, inside = make([])
            return self.put([made], inside)
        chosen = self.map.nodes[row].children[start:end]
        made, inside = make(values(chosen))
        plan = Plan(self.document.tree)
        plan.replace(chosen[0].id, made)
        for child in chosen[1:]:
            plan.remove(child.id)
        return self.make(plan, Caret(plan.id_of(inside), 0))

    def enter(self):
        """In a table the next row; else out of the place."""
        if tables.cell_of(self) is not None:
            tables.next_row(self)
        else:
            self.leave()

    def escape(self):
        self.anchor = None

    def paste(self, items):
        """Elements, which are to stand at the caret."""
        if items:
            self.put(items)


MOVES = {
    "ArrowLeft": lambda editor, extend: editor.step(-1, extend), "ArrowRight": lambda editor, extend: editor.step(1, extend),
    "ArrowUp": lambda editor, extend: editor.rise(-1, extend), "ArrowDown": lambda editor, extend: editor.rise(1, extend),
    "Home": lambda editor, extend: editor.to_end(-1, extend), "End": lambda editor, extend: editor.to_end(1, extend),
    "Start": lambda editor, extend: editor.to_whole_end(-1, extend), "Finish": lambda editor, extend: editor.to_whole_end(1, extend),
    "Tab": lambda editor, extend: editor.next_gap(-1 if extend else 1), "All": lambda editor, extend: editor.select_all(),
}
ACTS = {
    "Backspace": lambda editor: erasing.erase(editor, -1), "Delete": lambda editor: erasing.erase(editor, 1), "Enter": Editor.enter,
    "Escape": Editor.escape, "Undo": Editor.undo, "Redo": Editor.redo,
}


def beside(map, parent, child, by):
    """The place above or below a child in what holds it, or none."""
    place = map.index(child.id) + by
    if parent.name == "mfrac":
        return parent.children[place] if 0 <= place < 2 else None
    if parent.name in ("msup", "mover"):
        return parent.children[1 - map.index(child.id)] if (map.index(child.id) == 1) == (by > 0) else None
    if parent.name in ("msub", "munder"):
        return parent.children[1 - map.index(child.id)] if (map.index(child.id) == 1) == (by < 0) else None
    if parent.name in ("msubsup", "munderover"):
        order = [parent.children[2], parent.children[0], parent.children[1]]
        at = next(number for number, one in enumerate(order) if one is child) + by
        return order[at] if 0 <= at < 3 else None
    if parent.name == "mtable":
        return parent.children[place] if 0 <= place < len(parent.children) else None
    return None


def open_sign(row, end, parent):
    """The index of the last opening sign before a place that no closing one answers, or none. That of a group is answered."""
    depth = 0
    first = 1 if parent is not None and is_row(parent) and is_group(row) else 0
    for place in range(end - 1, first - 1, -1):
        depth += is_closing(row.children[place]) - is_opening(row.children[place])
        if depth < 0:
            return place
    return None


def opening_of(children, place):
    """The index of the opening sign that a closing one answers, or none."""
    depth = 0
    for at in range(place, -1, -1):
        child = children[at]
        depth += is_closing(child) - is_opening(child)
        if depth == 0:
            return at
    return None


def is_large(node):
    """Whether an operator takes limits or scripts as a base."""
    return node.text in WITH_LIMITS or node.text in set("∫∬∮")
