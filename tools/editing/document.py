"""A formula that is edited: its tree, which is kept here beside the engine's, and what can be undone and redone.

Elements have ids here that never change. Each engine has its own, in document order, and `Names` goes from one to the other. So an
engine that ended is replaced by another one, which gets the tree and its edits anew, and nothing is lost."""

from dataclasses import dataclass, field

from companion import formats
from companion.marks import Box, read_mark
from companion.trees import json_text
from editing.engine import DEPTH, LONGEST_LINE, REDO, UNDO, Broken
from editing.places import Caret, Map, Page
from second.edits import Insert, Refused, Remove, Replace, SetAttribute, SetText, edited
from second.tree import Tree
from second.tree_print import print_tree
from second.tree_reading import TreeFault, part_of, tree_of

# An engine is replaced before its script ends. So many lines a key has at most, and so many edits are said at once.
SPARE_LINES, AT_ONCE = 8_192, 500


class Refusal(Exception):
    """What isn't done: why, as one sentence."""


@dataclass
class Step:
    """What a key did: the edits, the tree before each of them and behind the last, and the caret before and behind."""

    edits: list
    trees: list
    before: Caret
    after: Caret


@dataclass
class Count:
    """What the last key took: microseconds of the engine, how many elements there are, and the trees on the way, by which the
    layouts are counted that it made."""

    microseconds: int
    elements: int
    trees: list = field(default_factory=list)


@dataclass
class Names:
    """The ids of an engine for those of a tree, and back."""

    theirs: dict = field(default_factory=dict)
    ours: dict = field(default_factory=dict)

    def add(self, id):
        self.theirs[id] = len(self.theirs) + 1
        self.ours[self.theirs[id]] = id

    def translated(self, edit, next_id):
        """The edit as the engine is told it; the ids of what it brings begin with the next one."""
        told = {**edit, "node": self.theirs[edit["node"]]}
        for place in range(count_of(edit.get("element"))):
            self.add(next_id + place)
        return told

    def take_back(self, next_id):
        """Forgets the ids from one on, which a refused edit didn't use."""
        for id in [id for id in self.theirs if id >= next_id]:
            del self.ours[self.theirs.pop(id)]


class Document:
    """A formula and its engine. `start` makes an engine of the text of a tree."""

    def __init__(self, start, value):
        self.start, self.engine = start, None
        self.tree = tree_of(value)
        self.past, self.future, self.told = [], [], ""
        self.map = Map(self.tree.root)
        self.caret = self.map.stops[-1]
        self.page = self.shown(self.asked([]))

    def change(self, edits, caret):
        """Makes edits, which are one step to undo, and puts the caret; raises Refusal, and then all is as before."""
        trees, why = self.trees_of(edits)
        if why and len(edits) > 1:
            raise Refusal(in_words(why))
        answer = self.asked(edits)
        refused = next((reply for reply in answer.replies if reply != "ok"), why)
        if refused:
            if answer.replies[0] == "ok":
                self.sleep()
            else:
                self.names.take_back(self.tree.next_id)
            raise Refusal(in_words(refused))
        self.past.append(Step(edits, trees, self.caret, caret))
        self.future.clear()
        self.forget()
        self.become(trees, caret, answer)

    def trees_of(self, edits):
        """The trees before each edit and behind the last, and why the first refused one is; raises Refusal where edits are too
        many, or one is too long."""
        if len(edits) > AT_ONCE:
            raise Refusal(f"That is too much at once: a key makes {AT_ONCE} edits at most. The formula is as it was.")
        trees, why = [self.tree], None
        for edit in edits:
            if len(json_text(edit).encode()) > LONGEST_LINE - 64:
                raise Refusal(f"That is too long: the engine takes lines of {LONGEST_LINE:,} bytes. The formula is as it was.")
            try:
                trees.append(edited(trees[-1], command_of(edit)))
            except TreeFault:
                return trees, "refused line"
            except Refused as refused:
                return trees, f"refused {refused.reason}"
        return trees, None

    def undo(self):
        """Takes the last step back; raises Refusal where there is none."""
        if not self.past:
            raise Refusal("There is nothing to undo.")
        step = self.past[-1]
        answer = self.asked([UNDO] * len(step.edits))
        self.future.append(self.past.pop())
        self.become([*step.trees[:0:-1], Tree(step.trees[0].root, self.tree.next_id)], step.before, answer)

    def redo(self):
        """Makes the step anew that was taken back last; raises Refusal where there is none."""
        if not self.future:
            raise Refusal("There is nothing to redo.")
        step = self.future[-1]
        answer = self.asked([REDO] * len(step.edits))
        self.past.append(self.future.pop())
        self.become([*step.trees[:-1], Tree(step.trees[-1].root, self.tree.next_id)], step.after, answer)

    def forget(self):
        """Keeps no more steps than the engine does."""
        while sum(len(step.edits) for step in self.past) > DEPTH:
            self.past.pop(0)

    def become(self, trees, caret, answer):
        """Takes over the tree behind a step."""
        self.tree = trees[-1]
        self.map = Map(self.tree.root)
        self.caret = self.map.settled(caret)
        self.page = self.shown(answer)
        self.count.trees = trees

    def rest(self):
        """Nothing is asked of the engine, until something is."""
        self.told, self.count = "", Count(0, len(self.map.nodes))

    # The engine

    def asked(self, edits):
        """The answer to edits; an engine that ends on the way is replaced once. Raises Broken where the other ends too."""
        ended = None
        while True:
            try:
                if self.engine is None or self.engine.room < SPARE_LINES:
                    self.begin()
                answer = self.engine.ask(self.translated(edits))
                self.told = f"{ended} It was started anew, and nothing is lost." if ended else self.told
                return answer
            except Broken as fault:
                self.sleep()
                if ended:
                    raise
                ended = fault

    def translated(self, edits):
        """The edits as the engine is told them."""
        told, next_id = [], self.tree.next_id
        for edit in edits:
            told.append(self.names.translated(edit, next_id) if "node" in edit else edit)
            next_id += count_of(edit.get("element"))
        return told

    def begin(self):
        """Begins an engine that can undo what could be undone before: it gets the oldest tree, and all steps since."""
        self.sleep()
        steps = [*self.past, *reversed(self.future)]
        oldest = steps[0].trees[0] if steps else self.tree
        self.names, self.engine = Names(), self.start(print_tree(oldest))
        for node in Map(oldest.root).order:
            self.names.add(node.id)
        said = [self.names.translated(edit, tree.next_id) for step in steps for edit, tree in zip(step.edits, step.trees)]
        said += [UNDO] * sum(len(step.edits) for step in self.future)
        for place in range(0, len(said), AT_ONCE):
            if set(self.engine.ask(said[place:place + AT_ONCE]).replies) != {"ok"}:
                raise Broken("The engine refused an edit that it had made before.")

    def sleep(self):
        """Ends the engine; another one is begun when it is needed."""
        if self.engine:
            self.engine.close()
        self.engine = None

    def shown(self, answer):
        """What the engine shows, with the ids of the tree; raises Broken where it shows another tree."""
        marks = [read_mark(line) for line in answer.shown]
        for mark in marks:
            if isinstance(mark, Box):
                mark.id = self.names.ours.get(mark.id)
                if mark.id not in self.map.nodes or self.map.nodes[mark.id].name != mark.name:
                    raise Broken("The engine shows another formula than the one that was edited.")
        self.count = Count(answer.microseconds, len(self.map.nodes))
        return Page(marks)


def count_of(element):
    """How many elements an element of a line brings."""
    return 0 if element is None else 1 + sum(map(count_of, element.get("children", [])))


def command_of(edit):
    """The edit that a line stands for."""
    node = edit["node"]
    match edit["op"]:
        case "text":
            return SetText(node, edit["text"])
        case "attr":
            return SetAttribute(node, edit["name"], edit.get("value"))
        case "insert":
            return Insert(node, edit["index"], part_of(edit["element"]))
        case "remove":
            return Remove(node)
    return Replace(node, part_of(edit["element"]))


def in_words(reply):
    """A sentence for a refused edit."""
    row = formats.reply(reply)
    if reply == "refused line":
        return "That isn't done: what was to be put in has more than 60 levels, or more than a tree may have. The formula is as it was."
    if row is None:
        return f"The engine refused that (`{reply}`). The formula is as it was."
    return f"That isn't done: {row['when']}. Right would be {row['what would be right']}. The formula is as it was."
