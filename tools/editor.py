#!/usr/bin/env python3
"""An editor of formulas in a page of a browser: each key is an edit, and the engine lays it out at once.

    editor.py [FORMULA] [--number K] [--font FONT] [--metrics FILE] [--fallback FONT].. [--program COMMAND] [--port N]

Prints the address of the page, which a browser on this machine opens, and ends with Ctrl-C. FORMULA is a tree file, MathML or an
HTML page, with whose first formula, or the Kth, each new page begins; without one they begin empty. A page that is loaded anew has its formula
still, and two pages have two formulas, until the editor ends. docs/EDITOR.md has the keys.

The server listens on 127.0.0.1 alone and answers only who knows the address, which has a token in it. Nothing is loaded that
isn't on this machine. For each page that is used there is one process of `mathlay history`, to which each key is a line or a few;
a process that ends is replaced, and the formula is kept. It needs a program that has the commands `history` and `paint`.
"""

import sys
import tempfile

from companion import command, drawing
from companion.command import Fault
from editing.counting import Counter, metrics_of
from editing.engine import Broken, Engine, lacking
from editing.pages import Pages
from editing.server import Server
from editing.shapes import with_rows
from second.tree_print import value_of
from second.tree_reading import TreeFault, tree_of

EMPTY = {"attributes": {"display": "block"}, "name": "math"}


def main(argv=None):
    parser = command.parser_of("editor", __doc__)
    parser.add_argument("formula", metavar="FORMULA", nargs="?")
    drawing.add_fonts(parser)
    parser.add_argument("--number", metavar="K", type=command.whole, default=None, help="the Kth formula of a page, from 1 on")
    parser.set_defaults(all=False)
    parser.add_argument("--port", metavar="N", type=int, default=0, help="the port of the page (one that is free)")
    return command.run(parser, work, argv)


def work(words):
    """Serves pages until Ctrl-C."""
    with tempfile.TemporaryDirectory(prefix="mathlay-") as room:
        drawing.settle_fonts("editor", words, room)
        server = server_of(words)
        print(f"editor: {server.address} (Ctrl-C ends it)", flush=True)
        try:
            server.serve_forever()
        except KeyboardInterrupt:
            pass
        finally:
            server.pages.close()
            server.server_close()
    return command.Output(None)


def server_of(words):
    """The server of pages; raises a Fault where the formula can't be laid out."""
    studio = drawing.studio_of("editor", words)
    if missing := lacking(studio.program, ("history", "paint")):
        raise Fault(f"{studio.program[0]}: has no command `{missing}`, which the editor needs: build it by `rt run` in crates/mathlay")
    value = formula_of(words)
    metrics = metrics_of(studio.metrics)
    pages = Pages(studio, value, lambda tree: Engine(studio.program, studio.metrics, tree), lambda: Counter(metrics))
    try:
        pages.page("first").document.sleep()
        pages.pages.clear()
    except Broken as fault:
        raise Fault(str(fault)) from None
    except TreeFault as fault:
        told = f"with a row in each place it has too many levels or elements (tree {fault.element} {fault.kind})"
        raise Fault(f"{words.formula}: {told}") from None
    try:
        return Server(pages, words.port)
    except (OSError, OverflowError) as fault:
        raise Fault(f"port {words.port}: {command.reason(fault)}") from None


def formula_of(words):
    """The tree with which pages begin; raises a Fault."""
    if words.formula is None:
        return with_rows(EMPTY)
    formula = drawing.formulas_of("editor", words.formula, words)[0]
    try:
        return with_rows(value_of(tree_of(formula.root).root))
    except TreeFault as fault:
        raise Fault(f"{words.formula}: tree {fault.element} {fault.kind}: explain.py says what that means") from None


if __name__ == "__main__":
    sys.exit(main())
