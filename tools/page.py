#!/usr/bin/env python3
"""Draws every formula of a page: each `<math>` of an HTML page, an XHTML page or a chapter of an EPUB gives way to an SVG that
stands on the baseline of its line.

    page.py IN [--font FONT] [--metrics FILE] [--fallback FONT].. [--no-mathml] [--program COMMAND] [-o OUT]

The SVG grows with the text in which it stands, and has its colour. The outlines of glyphs are written once a page. Each picture
has `role="img"` and a name for those who don't see it: the `alttext` of the formula, or its annotation in TeX, or else its text.
The MathML is kept within, in `<metadata>`; --no-mathml leaves it out. A formula with `display="block"` is a block of its own.

A formula that is broken, or that the program refuses, is told with its file, line and column, and left as it stood; the others
go on, and the status is then 1. What mathml_tree.py says of MathML 3 and picture.py of colours holds here too.

One process of the program lays all formulas out. How far it is is told on standard error while it runs, and at the end how many
formulas it drew, and how long it took. Without --font, Latin Modern Math is taken where Debian puts it; without --metrics they
are made of the font, or are those of samples/.
"""

import os
import re
import sys
import tempfile
import time
from html import escape

from companion import batches, command, drawing, mathml3, pages, svg
from companion.command import Fault
from companion.looks import looks_of
from companion.mathml import Node
from companion.trees import TOKENS, made_tree

SECONDS = 2
# The id of a formula, which its picture has in its place.
OWN_ID = re.compile(r"""\A(<[^>]*?)\s+id\s*=\s*(?:"[^"]*"|'[^']*'|[^\s>"']+)""", re.IGNORECASE)
HIDDEN = "position:absolute;width:0;height:0;overflow:hidden"


def main(argv=None):
    parser = command.parser_of("page", __doc__)
    parser.add_argument("page", metavar="IN")
    drawing.add_fonts(parser)
    parser.add_argument("--no-mathml", action="store_true", help="don't keep the MathML within the pictures")
    return command.run(parser, work, argv)


def work(words):
    """The bytes of the page, and 1 where a formula was left as it stood."""
    with tempfile.TemporaryDirectory(prefix="mathlay-") as room:
        text, encoding, is_xml = pages.page_text(words.page, command.read(words.page))
        drawing.settle_fonts("page", words, room)
        studio = drawing.studio_of("page", words)
        found, body = pages.formulas_in(words.page, text)
        if not found:
            raise Fault(f"{words.page}: holds no formula: it has no element math")
        page = Page(text, is_xml, studio, not words.no_mathml)
        left = page.draw(found)
    return command.Output(page.whole(body).encode(encoding, "xmlcharrefreplace"), int(left > 0))


class Page:
    """The text of a page, in which formulas give way to pictures."""

    def __init__(self, text, is_xml, studio, keeps):
        self.text, self.is_xml, self.studio, self.keeps = text, is_xml, studio, keeps
        number = 1
        while f"mathlay{number}-" in text:
            number += 1
        self.definitions = svg.Definitions(studio.outlines, f"mathlay{number}-")
        self.pictures = []

    def draw(self, found):
        """Draws all formulas that can be drawn, and tells of the others; how many are left as they stood."""
        began = told_at = time.monotonic()
        used_before = sum(os.times()[:4])
        told, lacks, left = mathml3.Told(), set(), 0
        ready = []
        for one in found:
            fault = one.fault
            try:
                if not fault:
                    ready.append((one, made_tree(mathml3.modern(one.node, told))))
            except Fault as made:
                fault = made
            if fault:
                left += 1
                command.warn("page", f"{fault}; it is left as it stood")
        outcomes = batches.laid_out(self.studio.program, self.studio.metrics, [tree for _, tree in ready])
        for number, ((one, tree), outcome) in enumerate(zip(ready, outcomes), 1):
            if isinstance(outcome, Fault):
                left += 1
                command.warn("page", f"{outcome}; it is left as it stood")
                continue
            self.studio.tell_of_lacks(drawing.Formula("", tree.root, None, tree), lacks)
            picture = svg.picture_of(outcome, self.studio.outlines, "", looks_of(tree.root))
            self.pictures.append((one, picture.inline(self.definitions, self.frame(one))))
            if time.monotonic() - told_at > SECONDS and number < len(ready):
                told_at = time.monotonic()
                command.warn("page", f"{number} of {len(ready)} formulas, {number / (told_at - began):.0f} a second")
        for line in told.lines():
            command.warn("page", line)
        seconds, used = time.monotonic() - began, sum(os.times()[:4]) - used_before
        command.warn("page", f"drew {len(self.pictures)} of {len(found)} formulas in {seconds:.1f} s, "
                     f"{len(self.pictures) / max(seconds, 0.001):.0f} a second ({used:.1f} s of processor time)")
        return left

    def frame(self, one):
        """What stands round the picture of a formula."""
        attributes = one.node.attributes
        names = f'class="{escape(" ".join(filter(None, ["mathlay", attributes.get("class", "")])))}"'
        if attributes.get("id"):
            names += f' id="{escape(attributes["id"])}"'
        if self.is_xml:
            names += ' xmlns="http://www.w3.org/2000/svg" xmlns:xlink="http://www.w3.org/1999/xlink"'
        kept = OWN_ID.sub(r"\1", self.text[one.start:one.end])
        inside = f"<metadata>{self.within(kept)}</metadata>" if self.keeps else ""
        block = attributes.get("display", "").strip().lower() == "block"
        return svg.Frame(f" {names}", name_of(one.node), inside, block, "xlink:" if self.is_xml else "")

    def within(self, kept):
        """The MathML as it stood; as text, where an HTML page would put an element of it outside of the picture."""
        tags = {tag.lower() for tag in re.findall(r"<([A-Za-z][A-Za-z0-9]*)", kept)}
        return escape(kept, quote=False) if tags & pages.BREAKS_OUT and not self.is_xml else kept

    def whole(self, body):
        """The text of the page with its pictures; the outlines stand where its body begins, or before the first picture."""
        if not self.pictures:
            return self.text
        place = body if body is not None and body <= self.pictures[0][0].start else self.pictures[0][0].start
        names = ' xmlns="http://www.w3.org/2000/svg"' if self.is_xml else ""
        outlines = f'<svg{names} aria-hidden="true" style="{HIDDEN}"><defs>\n' + "\n".join(self.definitions.lines()) + "\n</defs></svg>"
        pieces, last = [self.text[:place], outlines], place
        for one, picture in self.pictures:
            pieces += [self.text[last:one.start], picture]
            last = one.end
        return "".join([*pieces, self.text[last:]])


def name_of(node):
    """The name of a formula for those who don't see it."""
    told = node.attributes.get("alttext", "") or annotation_of(node) or " ".join(texts_of(node))
    return " ".join(told.split()) or "formula"


def annotation_of(node):
    """The first annotation in TeX."""
    for kid in node.children:
        if isinstance(kid, Node):
            if kid.name == "annotation" and "tex" in kid.attributes.get("encoding", "").lower():
                return "".join(piece[1] for piece in kid.children if not isinstance(piece, Node))
            if found := annotation_of(kid):
                return found
    return ""


def texts_of(node):
    """The texts of the tokens that show."""
    if node.name in ("annotation", "annotation-xml"):
        return
    for kid in node.children:
        if isinstance(kid, Node):
            yield from texts_of(kid)
        elif node.name in TOKENS and kid[1].strip():
            yield kid[1].strip()


if __name__ == "__main__":
    sys.exit(main())
