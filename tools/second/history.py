"""The command `history`: a session whose edits are undone and redone.

A state is the trees of before, the present one, and the trees to which redoing leads. Each is a tree with its ids, in flow or not.
The next id isn't among them: it only grows, so that no id is given twice.
"""

import re

from .layout import lay_tree
from .session import Session
from .tree import Tree

DEPTH = re.compile("[0-9]{1,4}")
DEEPEST = 1000


def depth_of(word):
    """How many edits can be undone, or None where a word doesn't say it."""
    return int(word) if DEPTH.fullmatch(word) and 1 <= int(word) <= DEEPEST else None


class History(Session):
    """Keeps the roots of so many trees of before, the oldest first, and those to which redoing leads, the next one first."""

    def __init__(self, metrics, tree, depth):
        super().__init__(metrics, tree)
        self.depth, self.past, self.future = depth, [], []

    def edit(self, edit):
        """An edit that is made can be undone, and leaves nothing to redo."""
        old = self.tree.root
        super().edit(edit)
        self.past = [*self.past, old][-self.depth :]
        self.future = []

    def undo(self):
        """Goes back to the tree before the last edit; says whether there is one."""
        if not self.past:
            return False
        self.future = [self.tree.root, *self.future]
        self.stand_at(self.past.pop())
        return True

    def redo(self):
        """Goes on to the tree that was undone last; says whether there is one."""
        if not self.future:
            return False
        self.past.append(self.tree.root)
        self.stand_at(self.future.pop(0))
        return True

    def stand_at(self, root):
        self.tree = Tree(root, self.tree.next_id)
        self.layout = lay_tree(self.metrics, self.tree)

    def steps(self):
        return {"undo": self.undo, "redo": self.redo}
