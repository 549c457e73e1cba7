"""Which layouts a session makes: those that a tree needs and that aren't kept."""

from second.edits import Refused, edited
from second.glyphs import BuiltMark, GlyphMark, RuleMark
from second.layout import OutOfRange, lay, needed
from second.script import SHOW, NoCommand, command_in
from second.tree_reading import TreeFault, tree_of

from .boxes import metrics_of
from .faults import NOT_AN_ELEMENT, LineFault
from .runs import text_of
from .values import Fields

OUT_OF_RANGE = "range"
REFUSED = "refused"
# What is kept in the end is compared with a fresh layout, what the session holds at each line with an equal tree beside
# it, and the session at its end with one over a copy of its tree: by the definitions nothing differs.
ALL_SAME = ("fresh same", "session same", "copy same")
START_SAME = "start same"

# A session drops what its tree doesn't need at a show, and before an edit where more layouts are kept than this, or where there
# are more than twice the cells that it left when it last did.
MOST_UNSWEPT = 131_072

# The cells of a layout: nine for its box and the spaces round it, one for the length of each of its four lists, and those of
# their items: widths, spans, offsets and marks.
FIXED_CELLS, SPAN_CELLS, OFFSET_CELLS = 13, 4, 3
MARK_CELLS = {GlyphMark: 5, RuleMark: 5, BuiltMark: 8}


def steps(known, value):
    """How many layouts are made at the start and by each edit of a script, and how many are kept after each; then that
    all is the same that is compared."""
    fields = Fields(value, "metrics", "tree", "script")
    script = fields.items("script", lambda _line: True)
    tree, metrics = tree_in(fields), metrics_of(known, fields)
    try:
        held = Held(metrics, tree)
    except OutOfRange:
        return OUT_OF_RANGE
    first = made(len(held.kept), held.kept, held.cells)
    return "; ".join([first, *(held.answer(text_of(line)) for line in script), *ALL_SAME])


def relay(known, value):
    """How many layouts are made of a tree of which none is kept: those that it needs. Where it is out of range, none is
    kept."""
    fields = Fields(value, "metrics", "tree")
    tree, metrics = tree_in(fields), metrics_of(known, fields)
    try:
        layouts = needed(metrics, tree)
    except OutOfRange:
        return f"{OUT_OF_RANGE}, {told_kept((), 0)}"
    return f"{made(len(layouts), layouts, cells_of(metrics, tree, layouts))}; {START_SAME}"


def tree_in(fields):
    """The tree of a value."""
    try:
        return tree_of(fields.value("tree"))
    except TreeFault:
        raise LineFault(NOT_AN_ELEMENT) from None


def made(count, kept, cells):
    return f"made {count}, {told_kept(kept, cells)}"


def told_kept(kept, cells):
    return f"kept {len(kept)}, cells {cells}"


def cells_of(metrics, tree, pairs):
    """How many cells the layouts of a tree have that these pairs of an id and a context name."""
    nodes = {node.id: node for node in elements(tree.root)}
    return sum(cells_in(lay(metrics, nodes[name], context)) for name, context in pairs)


def cells_in(layout):
    """How many cells a layout has."""
    lists = len(layout.cells) + SPAN_CELLS * len(layout.spans) + OFFSET_CELLS * len(layout.offsets)
    return FIXED_CELLS + lists + sum(MARK_CELLS[type(mark)] for mark in layout.marks)


class Held:
    """A tree, and the layouts that are kept of it: pairs of an id and a context. The cells of those that aren't kept any more
    stay until what the tree doesn't need is dropped."""

    def __init__(self, metrics, tree):
        self.metrics, self.tree = metrics, tree
        self.drop()

    def drop(self):
        """What the tree doesn't need is dropped."""
        self.kept = needed(self.metrics, self.tree)
        self.cells = self.swept_cells = cells_of(self.metrics, self.tree, self.kept)

    def answer(self, line):
        """What comes of a line of a script."""
        try:
            command = command_in(line)
            return self.shown() if command is SHOW else self.edited(command)
        except (NoCommand, Refused):
            return REFUSED
        except OutOfRange:
            return OUT_OF_RANGE

    def shown(self):
        """A show drops what the tree doesn't need."""
        self.drop()
        return told_kept(self.kept, self.cells)

    def edited(self, command):
        """An edit drops what is kept of the elements on its way and of those that it takes out; where much is kept, it first
        drops all that the tree doesn't need."""
        if len(self.kept) > MOST_UNSWEPT or self.cells > 2 * self.swept_cells:
            self.drop()
        tree = edited(self.tree, command)
        layouts = needed(self.metrics, tree)
        before = {id(node) for node in elements(self.tree.root)}
        calm = {node.id for node in elements(tree.root) if id(node) in before}
        stay = {pair for pair in self.kept if pair[0] in calm}
        new = layouts - stay
        self.compare(len(new), layouts, calm)
        self.tree, self.kept = tree, stay | layouts
        self.cells += cells_of(self.metrics, tree, new)
        return made(len(new), self.kept, self.cells)

    def compare(self, count, layouts, calm):
        """An edit may have to make layouts that the edited tree needs: those of elements that it changes or brings, and
        those that the tree before didn't need. Where just what that tree needs is kept, so many are made, and where more
        is kept no more of them."""
        old = needed(self.metrics, self.tree)
        bound = sum(1 for pair in layouts if pair[0] not in calm or pair not in old)
        assert count == bound if self.kept == old else count <= bound


def elements(node):
    """An element and all below it. An edit leaves an element as it is, or makes another one in its place."""
    yield node
    for child in node.children:
        yield from elements(child)


KINDS = {"relay": relay, "steps": steps}
