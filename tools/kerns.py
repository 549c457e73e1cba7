#!/usr/bin/env python3
"""Draws a formula with the kerns that a font has for the corners of scripts, and below it without.

    kerns.py FONT [FORMULA] [--zoom N] [--format svg|png|pdf] [--program COMMAND] [-o FILE]

The metrics of FONT are made by the way, as font_metrics.py makes them with tools/operators.txt.
They are taken once as they are, and once in version 1, without their `kern` lines. FORMULA is
MathML or a tree file, or else docs/kerns.mml. A line on standard error tells how wide the formula
is with the kerns and without. The picture is an SVG, or a PNG or PDF where FILE ends in .png or
.pdf, or --format says so. The program is chosen as by picture.py.
"""

import sys
import tempfile
from pathlib import Path

import font_metrics
from companion import command, drawing, render
from companion.command import Fault
from companion.svg import PX, number
from picture import zoom

TOOLS = Path(__file__).resolve().parent
FORMULA = TOOLS.parent / "docs" / "kerns.mml"
# How high the line of a caption is, and its letters, in px.
LINE, LETTERS = 22, 14
FACE = f'font-family="sans-serif" font-size="{LETTERS}" fill="#444"'


def main(argv=None):
    parser = command.parser_of("kerns", __doc__)
    parser.add_argument("font", metavar="FONT")
    parser.add_argument("formula", metavar="FORMULA", nargs="?", default=str(FORMULA))
    drawing.add_words(parser)
    drawing.add_choice(parser)
    parser.add_argument("--zoom", metavar="N", type=zoom, default=3.0, help="px for one px of the formula (3)")
    parser.add_argument("--format", choices=render.FORMATS, help="what to write, where no name says it")
    return command.run(parser, work, argv)


def work(words):
    """The bytes of the picture."""
    with tempfile.TemporaryDirectory(prefix="mathlay-") as room:
        with_kerns = made_metrics(words, Path(room) / "with.metrics")
        without = Path(room) / "without.metrics"
        command.write(without, without_kerns(with_kerns.read_bytes()))
        drawn = [picture_by(words, *each) for each in ((with_kerns, "k"), (without, "n"))]
    widths = [picture.boxes[0].width for picture in drawn]
    command.warn("kerns", f"{widths[0]} units wide with kerns, and {widths[1]} without")
    svg = stacked([*zip(("with kerns", "without"), drawn)], words.zoom)
    return render.rendered(svg, render.format_of(words.output, words.format))


def made_metrics(words, path):
    """The metrics of the font, in a file; raises a Fault."""
    options = [option for each in words.fallback for option in ("--fallback", each)]
    options += ["--operators", str(TOOLS / "operators.txt"), "-o", str(path)]
    if font_metrics.main([words.font, *options]) != 0:
        raise Fault(f"{words.font}: no metrics could be made of it")
    return path


def without_kerns(metrics):
    """Metrics in version 1, without the lines of kerns; raises a Fault where there are none."""
    lines = metrics.split(b"\n")
    left = [line for line in lines if not line.startswith(b"kern ")]
    if left == lines:
        raise Fault("the font has no kerns for the corners of scripts")
    return b"\n".join(b"mathlay-metrics 1" if line == b"mathlay-metrics 2" else line for line in left)


def picture_by(words, metrics, prefix):
    """The picture of the formula with these metrics; raises a Fault."""
    words.metrics = str(metrics)
    studio = drawing.studio_of("kerns", words)
    [formula] = drawing.formulas_of("kerns", words.formula, words)
    return studio.picture(formula, prefix)[0]


def stacked(pictures, scale):
    """An SVG with the pictures one below the other on white, each under its caption."""
    lines, top, widest = [], 0, 0
    for caption, picture in pictures:
        _, _, width, height = (length * scale / PX for length in picture.frame())
        lines.append(f'<text x="6" y="{number(top + LETTERS)}" {FACE}>{caption}</text>')
        placed = f'<svg y="{number(top + LINE)}" '
        lines.append(picture.svg(scale, False).rstrip("\n").replace("<svg ", placed, 1))
        top, widest = top + LINE + height, max(widest, width)
    head = f'<svg xmlns="http://www.w3.org/2000/svg" width="{number(widest)}" height="{number(top)}">'
    return "\n".join([head, '<rect width="100%" height="100%" fill="white"/>', *lines, "</svg>"]) + "\n"


if __name__ == "__main__":
    sys.exit(main())
