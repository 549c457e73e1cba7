"""The pages that are open: each has a formula of its own, and an engine while it is used."""

import json
import tempfile
import threading

from companion import command, mathml3
from companion.command import Fault
from companion.mathml import read_formulas
from companion.program import Inputs, run
from companion.trees import json_text, made_tree
from editing import picture, speech, symbols
from editing.document import Document, Refusal
from editing.engine import Broken
from editing.keys import Editor
from editing.shapes import is_gap, is_gap_value, with_rows, without_gaps
from second.tree import Node
from second.tree_print import print_tree, value_of
from second.tree_reading import TreeFault, tree_of

# Pages whose formulas are kept, and engines that run at a time.
MOST_PAGES, MOST_ENGINES = 64, 8
# Characters of a text that is pasted as keys.
LONGEST_TEXT = 2_000
MOST_LINES = 2_000


class Pages:
    """All pages, by the names that they give themselves."""

    def __init__(self, studio, value, start, counter):
        self.studio, self.value, self.start, self.counter = studio, value, start, counter
        self.pages, self.lock = {}, threading.Lock()

    def page(self, name, like=None):
        """The page of a name, which is made where there is none; it begins as another one is, where that is named."""
        with self.lock:
            if name not in self.pages:
                other = self.pages.get(like)
                value = value_of(other.document.tree.root) if other else self.value
                self.pages[name] = FormulaPage(self.studio, value, self.start, self.counter())
            page = self.pages[name] = self.pages.pop(name)
            self.thin()
            return page

    def thin(self):
        """Ends engines that weren't used for long, and forgets pages that weren't for longer."""
        for page in list(self.pages.values())[:-MOST_ENGINES]:
            if page.lock.acquire(blocking=False):
                page.document.sleep()
                page.lock.release()
        while len(self.pages) > MOST_PAGES:
            self.pages.pop(next(iter(self.pages))).document.sleep()

    def close(self):
        """Ends all engines."""
        for page in self.pages.values():
            page.document.sleep()


class FormulaPage:
    """A page: the editor of its formula, how many events it has done, which outlines it was given, and how many microseconds the
    engine took for each of the last events."""

    def __init__(self, studio, value, start, counter):
        self.studio, self.lock, self.number, self.given = studio, threading.Lock(), 0, set()
        self.took = []
        self.document, self.counter = Document(start, value), counter
        self.editor = Editor(self.document)

    def open(self):
        """All that the page shows, for a page that has nothing yet."""
        with self.lock:
            self.given = set()
            return self.state("")

    def do(self, number, events):
        """Does events, the first of which has a number. Those that were done before aren't done again, and none is done where
        one is missing before them."""
        with self.lock:
            told, self.took = [], []
            if number <= self.number + 1:
                for event in events[self.number + 1 - number:]:
                    self.number += 1
                    told.append(self.done(event))
                    self.took.append(self.document.count.microseconds)
            return self.state(" ".join(dict.fromkeys(filter(None, told))))

    def done(self, event):
        """Does an event, and tells what is to be told of it."""
        told = ""
        self.document.rest()
        try:
            for each in keys_of(event):
                self.editor.do(each)
        except Refusal as refusal:
            told = str(refusal)
        except (Broken, Fault) as fault:
            told = f"{str(fault).rstrip('.')}. The formula is kept, and the next key tries again."
        return " ".join(filter(None, [self.document.told, told]))

    def state(self, told):
        """What the page shows."""
        document, editor = self.document, self.editor
        map, page, span = document.map, document.page, editor.span
        lines, names = picture.paints(page.marks, self.studio.drawn)
        new = [picture.outline(self.studio, name, picture.PREFIX) for name in sorted(names - self.given)]
        self.given |= names
        chosen = {id for child in chosen_of(map, span) for id in below(child)}
        return {
            "number": self.number, "told": told, "frame": picture.frame(page.boxes[1]), "lines": "".join(lines), "outlines": "".join(new),
            "boxes": [[box.id, box.x, box.y - box.ascent, box.width, box.ascent + box.descent] for box in page.boxes.values()],
            "caret": page.caret(map, editor.caret), "areas": page.areas(map, span),
            "gaps": [[box.x, box.y - box.ascent, box.width, box.ascent + box.descent] for box in self.gap_boxes()],
            "tree": tree_lines(map, chosen, editor.caret.node), "microseconds": document.count.microseconds,
            "elements": document.count.elements, "took": self.took,
            "name": None if editor.name is None else {"text": editor.name, "names": symbols.beginning(editor.name)},
            "others": sum(stop != editor.caret for stop in map.gaps()), "undo": len(document.past), "redo": len(document.future), "chosen": self.chosen(),
            "formula": speech.formula(map.root), "place": speech.place(map, editor.caret, span),
        }

    def chosen(self):
        """The MathML of what is selected, to be copied."""
        parts = chosen_of(self.document.map, self.editor.span)
        return picture.mathml(Node(0, "math", {}, "", tuple(parts))) if parts else ""

    def layouts(self):
        """How many layouts the last event made, or none where they aren't counted. That takes longer than the engine does, so it
        is asked for when no key waits."""
        with self.lock:
            return {"number": self.number, "layouts": self.counter(self.document.count.trees)}

    def gap_boxes(self):
        """The boxes of gaps."""
        return [self.document.page.boxes[node.id] for node in self.document.map.order
                if is_gap(node) and node.id in self.document.page.boxes]

    def copy(self, what):
        """The formula as text: its MathML, its SVG by the engine, or its tree with gaps and all; raises a Fault."""
        with self.lock:
            root = self.document.tree.root
            if what == "tree":
                return print_tree(self.document.tree) + "\n"
            if what == "mathml":
                return picture.mathml(root)
            return self.painted(json_text(without_gaps(value_of(root))))

    def painted(self, tree):
        """The picture of a tree as the engine paints it, with the outlines of its glyphs."""
        with tempfile.NamedTemporaryFile(suffix=".json") as file:
            file.write(tree.encode())
            file.flush()
            written = run(self.studio.program, "paint", Inputs(self.studio.metrics, file.name, None, "the formula"))
        return picture.with_outlines(written, self.studio)


def chosen_of(map, span):
    return map.nodes[span.row].children[span.start:span.end] if span else ()


def below(node):
    """The ids of an element and of all below it."""
    yield node.id
    for child in node.children:
        yield from below(child)


def tree_lines(map, chosen, here):
    """The tree, a line an element: id, level, what it is, whether it is selected, and whether the caret stands in it."""
    levels, lines = {}, []
    for node in map.order[:MOST_LINES]:
        parent = map.parents[node.id]
        levels[node.id] = levels[parent.id] + 1 if parent else 1
        lines.append([node.id, levels[node.id], speech.element(node), node.id in chosen, node.id == here])
    return lines


def keys_of(event):
    """The events that one stands for: a text that is pasted is typed, and a formula that is pasted is put in whole."""
    if "paste" not in event:
        return [event]
    text = event["paste"].strip()
    if text.startswith(("<", "{")):
        return [{"paste": pasted(text)}]
    if len(text) > LONGEST_TEXT:
        raise Refusal(f"A text that is pasted may have {LONGEST_TEXT:,} characters; MathML may be longer. The formula is as it was.")
    return [{"key": " " if letter.isspace() else letter} for letter in text]


def pasted(text):
    """The elements of a formula in MathML, or of a tree; raises Refusal."""
    try:
        if text.startswith("{"):
            root = value_of(tree_of(json.loads(text)).root)
        else:
            root = made_tree(mathml3.modern(read_formulas("the pasted text", text.encode())[0], mathml3.Told())).root
        return [child for child in with_rows(root).get("children", []) if not is_gap_value(child)]
    except Fault as fault:
        raise Refusal(f"{command.one_line(fault)}. The formula is as it was.") from None
    except (ValueError, RecursionError, TreeFault):
        raise Refusal("The pasted text begins as a tree and is none. The formula is as it was.") from None
