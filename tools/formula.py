#!/usr/bin/env python3
"""Draws a formula that is written in LaTeX, where pandoc is.

    formula.py TEX [--inline] [--mathml] [--font FONT] [--metrics FILE] [--fallback FONT].. [--boxes] [--zoom N]
               [--format svg|png|pdf] [--program COMMAND] [-o FILE]

TEX is LaTeX without dollars, such as 'x^2 \\over 2'; `-` reads it from standard input. It is drawn as a formula of its own line,
or with --inline as one within text. The picture is an SVG, or a PNG or PDF where FILE ends in .png or .pdf. With --mathml the
MathML is written that pandoc makes, and nothing is drawn.

pandoc reads what most papers write; `\\over`, `\\atop` and `\\choose` are turned into `\\frac` and the like first. What pandoc can't
read is told with its own words. Without --font, Latin Modern Math is taken where Debian puts it; without --metrics they are
made of the font, or are those of samples/.
"""

import shutil
import subprocess
import sys
import tempfile

from companion import command, drawing, render, tex
from companion.command import Fault
from companion.mathml import read_formulas
from picture import zoom

NO_PANDOC = "pandoc isn't here: install Debian's pandoc, or write MathML and draw it with picture.py"
SECONDS = 60


def main(argv=None):
    parser = command.parser_of("formula", __doc__)
    parser.add_argument("tex", metavar="TEX")
    drawing.add_fonts(parser)
    parser.add_argument("--inline", action="store_true", help="as within text, where limits stand beside")
    parser.add_argument("--mathml", action="store_true", help="write the MathML, and draw nothing")
    parser.add_argument("--boxes", action="store_true", help="draw boxes, baselines and ids on top")
    parser.add_argument("--zoom", metavar="N", type=zoom, default=2.0, help="px of the picture for one px of the formula (2)")
    parser.add_argument("--format", choices=render.FORMATS, help="what to write, where the name of the output doesn't say it")
    return command.run(parser, work, argv)


def work(words):
    """The bytes of the picture, or of the MathML."""
    text = command.standard(sys.stdin, "input").read().decode("utf-8", "replace") if words.tex == "-" else words.tex
    mathml = mathml_of(text, words.inline)
    if words.mathml:
        return f"{mathml}\n".encode()
    with tempfile.TemporaryDirectory(prefix="mathlay-") as room:
        drawing.settle_fonts("formula", words, room)
        studio = drawing.studio_of("formula", words)
        [node] = read_formulas("the formula", mathml.encode())
        [tree] = drawing.trees_of("formula", [node])
        drawn, _ = studio.picture(drawing.Formula("the formula", tree.root, None, tree))
        return render.rendered(drawn.svg(words.zoom, words.boxes), render.format_of(words.output, words.format))


def mathml_of(text, inline):
    """The element `math` that pandoc makes of LaTeX; raises a Fault."""
    pandoc = shutil.which("pandoc")
    if not pandoc:
        raise Fault(NO_PANDOC)
    if not text.strip():
        raise Fault("the formula is empty")
    body = " ".join(tex.modern(text).split())
    document = rf"\({body}\)" if inline else rf"\[{body}\]"
    done = subprocess.run([pandoc, "-f", "latex", "-t", "html", "--mathml"], input=document.encode(), capture_output=True,
                          timeout=SECONDS)
    page = done.stdout.decode("utf-8", "replace")
    start, end = page.find("<math"), page.rfind("</math>")
    if done.returncode != 0 or start < 0 or page.count("<math") != 1:
        told = done.stderr.decode("utf-8", "replace").replace("[WARNING] ", "").strip()
        raise Fault(f"pandoc can't read the formula: {told or 'it is none, or more than one'}")
    return page[start:end + len("</math>")]


if __name__ == "__main__":
    sys.exit(main())
