"""A session of an editor: a tree that is in range, and the replies to the lines of a script."""

from .edits import Refused, edited
from .layout import OutOfRange, lay_tree
from .placing import page
from .script import SHOW, NoCommand, command_in, is_blank, sole_op


class Session:
    """Begins with a tree and its layout; raises OutOfRange where that can't be stored."""

    def __init__(self, metrics, tree):
        self.metrics, self.tree, self.layout = metrics, tree, lay_tree(metrics, tree)

    def page(self):
        """The lines of the boxes."""
        return page(self.metrics, self.layout)

    def edit(self, edit):
        """Makes an edit, or raises Refused and leaves the tree as it is."""
        tree = edited(self.tree, edit)
        try:
            self.layout = lay_tree(self.metrics, tree)
        except OutOfRange:
            raise Refused("range") from None
        self.tree = tree

    def steps(self):
        """What other lines ask for, by their `op`, which is their only key: functions that say whether it could be done."""
        return {}

    def reply_to(self, line):
        """What is written for a line of a script."""
        if is_blank(line):
            return b""
        try:
            step = self.steps().get(sole_op(line))
            if step:
                return b"ok\n" if step() else b"refused nothing\n"
            command = command_in(line)
            if command is SHOW:
                return b"shown\n" + self.page()
            self.edit(command)
            return b"ok\n"
        except NoCommand:
            return b"refused line\n"
        except Refused as refusal:
            return f"refused {refusal.reason}\n".encode()
