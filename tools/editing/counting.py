"""How many layouts the engine makes at an edit. The program doesn't tell, so they are counted beside it, by what the theorem on the
work of an edit says: those that the edited tree needs, and that aren't kept from before."""

from companion import command
from second.layout import OutOfRange, needed
from second.metrics_reading import read_metrics

# Larger formulas aren't counted, since that takes longer than the engine does.
MOST_ELEMENTS = 400


class Counter:
    """The layouts that are kept of a tree, by the metrics of a file."""

    def __init__(self, metrics):
        self.metrics, self.tree, self.kept = metrics, None, frozenset()

    def __call__(self, trees):
        """How many layouts are made on the way from the first tree to the last one, which is shown; none where they aren't
        counted."""
        if not trees:
            return 0
        if any(tree.root.count > MOST_ELEMENTS for tree in trees):
            self.tree = None
            return None
        try:
            kept = self.kept if self.tree is trees[0].root else needed(self.metrics, trees[0])
            made, layouts = 0, kept
            for before, after in zip(trees, trees[1:]):
                old = {id(node) for node in nodes(before.root)}
                calm = {node.id for node in nodes(after.root) if id(node) in old}
                layouts = needed(self.metrics, after)
                stay = {pair for pair in kept if pair[0] in calm}
                made += len(layouts - stay)
                kept = stay | layouts
            self.tree, self.kept = trees[-1].root, layouts
        except OutOfRange:
            self.tree = None
            return None
        return made


def nodes(node):
    """An element and all below it."""
    yield node
    for child in node.children:
        yield from nodes(child)


def metrics_of(path):
    """The metrics of a file, for counters."""
    return read_metrics(command.read(path))
