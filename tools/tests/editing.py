"""What the tests of the editor share: an engine in Python, which needs no program, and the program where it is there."""

import json
import os
import random
import subprocess
import tempfile
from functools import cache

from companion import command, drawing
from companion.fonts import NO_FONT_TOOLS, TTFont
from companion.marks import Box, read_marks
from companion.metrics import read_drawn
from companion.program import BUILT
from editing.counting import Counter
from editing.engine import Answer, lacking
from editing.pages import FormulaPage
from editing.picture import PREFIX
from editing.shapes import is_gap, is_row, with_rows
from second.edits import Refused, edited
from second.layout import OutOfRange, lay_tree
from second.metrics_reading import read_metrics
from second.placing import page as lines_of
from second.script import NoCommand, command_in
from second.tree import Tree
from second.tree_reading import tree_of
from tests.common import TOP

METRICS = TOP / "samples" / "latin-modern-math.metrics"
# A program that the tests take in place of the built one.
PROGRAM = os.environ.get("MATHLAY", str(BUILT))
EMPTY = with_rows({"attributes": {"display": "block"}, "name": "math"})
QUADRATIC = [" x=/-b\\pm \\sqrt b^2 -4ac", "Tab", " 2a"]
KEYS_OF_QUADRATIC = 26
SAID = "x equals fraction minus b plus or minus square root b to the 2 minus 4 a c end of square root over 2 a end of fraction"
NAMES = ("sqrt frac sum root matrix pmatrix row column delrow delcolumn wider taller narrower shorter hat lim alpha int over cases sin "
         "nosuch").split()
MOVES = ["ArrowLeft", "ArrowRight", "ArrowUp", "ArrowDown", "Home", "End", "Tab"]
KEYS = [*"abcxyz0123456789+-=()/^_ &,.\\'|<", *MOVES, "Backspace", "Delete", "Enter", "Escape"]
COMMANDS = ["Undo", "Redo", "All", "Start", "Finish"]


@cache
def metrics():
    return read_metrics(METRICS.read_bytes())


@cache
def lacks(*commands):
    """Why the program can't be tried, or none."""
    if not os.access(PROGRAM, os.X_OK):
        return "no program: `rt ci` builds crates/mathlay/out/mathlay"
    try:
        if missing := lacking([PROGRAM], commands):
            return f"the program has no command `{missing}` yet"
    except command.Fault as fault:
        return str(fault)
    if not TTFont:
        return NO_FONT_TOOLS
    return None if drawing.usual_fonts() else "no Latin Modern Math: Debian's fonts-lmodern has it"


class SecondEngine:
    """Answers as `mathlay history` does, by the second engine."""

    room = 65_536

    def __init__(self, text):
        self.tree, self.past, self.future = tree_of(json.loads(text)), [], []

    def ask(self, edits):
        replies = [self.reply(edit) for edit in edits]
        return Answer(replies, lines_of(metrics(), lay_tree(metrics(), self.tree)).decode().splitlines())

    def reply(self, edit):
        if edit["op"] in ("undo", "redo"):
            source, other = (self.past, self.future) if edit["op"] == "undo" else (self.future, self.past)
            if not source:
                return "refused nothing"
            other.append(self.tree)
            self.tree = Tree(source.pop().root, self.tree.next_id)
            return "ok"
        try:
            tree = edited(self.tree, command_in(json.dumps(edit).encode()))
            lay_tree(metrics(), tree)
        except NoCommand:
            return "refused line"
        except Refused as refused:
            return f"refused {refused.reason}"
        except OutOfRange:
            return "refused range"
        self.past, self.future = [*self.past, self.tree][-1000:], []
        self.tree = tree
        return "ok"

    def close(self):
        pass


class NoOutlines:
    """Outlines that show nothing, where there is no font."""

    def path(self, _name):
        return ""


class NoStudio:
    """Metrics without a font and without a program."""

    drawn, outlines, program, metrics = read_drawn(METRICS), NoOutlines(), [], str(METRICS)


def typed(*keys, page=None):
    """A page in which keys were pressed: each is the name of a key, or a text of characters behind a blank."""
    page = page or FormulaPage(NoStudio(), EMPTY, SecondEngine, Counter(metrics()))
    state = None
    for key in keys:
        for one in key[1:] if key.startswith(" ") else [key]:
            state = page.do(page.number + 1, [{"key": one}])
    return page, state


def random_events(seed, count, page=None):
    """So many events by chance: keys, names and points. Without a page, the keys that a keyboard gives alone."""
    chance, events = random.Random(seed), []
    while len(events) < count:
        part = chance.random()
        if part < 0.15:
            events += [{"key": letter} for letter in f"\\{chance.choice(NAMES)} "]
        elif part < 0.25 and page:
            point = [chance.randrange(-5_000, 200_000), chance.randrange(-50_000, 50_000)]
            events.append({"point": point, "extend": chance.random() < 0.4})
        elif part < 0.35:
            events.append({"key": chance.choice(COMMANDS), "extend": False})
        else:
            key = chance.choice(KEYS)
            events.append({"key": key, "extend": key in MOVES and chance.random() < 0.2})
    return events[:count]


def told(page):
    """A formula in short words, with a bar at the caret."""
    caret = page.document.caret

    def words(node):
        if is_row(node):
            parts = [each(child) for child in node.children]
            if node.id == caret.node:
                parts.insert(caret.offset, "|")
            return " ".join(parts)
        return each(node)

    def each(node):
        if is_gap(node):
            return "gap"
        if node.text:
            return f"{node.text} [{caret.offset}]" if node.id == caret.node else node.text
        inner = words(node) if is_row(node) else ", ".join(map(cell, node.children))
        return f"{node.name}({inner})"

    def cell(node):
        spans = "".join(f"{name}{node.attributes[name]}" for name in ("columnspan", "rowspan") if name in node.attributes)
        return f"{spans}({words(node)})" if spans else words(node)

    return words(page.document.tree.root)


def studio():
    """The studio with which the program's formulas are drawn."""
    words = command.parser_of("editor", "")
    drawing.add_fonts(words)
    given = words.parse_args(["--program", PROGRAM])
    drawing.settle_fonts("editor", given, "")
    return drawing.studio_of("editor", given)


def written(verb, tree, *words):
    """What the program writes of a tree, as text."""
    with tempfile.NamedTemporaryFile("w", suffix=".json") as file:
        file.write(tree)
        file.flush()
        done = subprocess.run([PROGRAM, verb, str(METRICS), file.name, *map(str, words)], capture_output=True, text=True, timeout=120)
    if done.returncode:
        raise AssertionError(f"{verb}: {done.returncode} {done.stdout}")
    return done.stdout


def painted(tree):
    """The lines of glyphs and rules that the program paints, with the names that the page has for outlines."""
    return [line.replace('href="#', f'href="#{PREFIX}') for line in written("paint", tree).splitlines()[1:-1]]


def boxes_of(tree):
    """The boxes that the program gives a tree laid out afresh: left, top, width and height each, in document order."""
    marks = read_marks(written("layout", tree))
    return [[box.x, box.y - box.ascent, box.width, box.ascent + box.descent] for box in marks if isinstance(box, Box)]
