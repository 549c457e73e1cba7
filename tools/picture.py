#!/usr/bin/env python3
"""Draws a formula: has the built program paint it, and puts the outlines of the font in.

    picture.py FILE.metrics FONT FORMULA [--fallback FONT].. [--number K | --all] [--boxes] [--zoom N] [--lines FILE]
               [--format svg|png|pdf] [--program COMMAND] [-o FILE]
    picture.py --html FILE.metrics FONT FORMULA.. [the same]

FILE.metrics is what font_metrics.py made of FONT, and of each --fallback font, which are to be given in the same order.
FORMULA is a tree file, which begins with `{`, or else MathML or an HTML page, whose first formula is drawn, or the Kth, or all;
mathml_tree.py says what is made of it. The picture is an SVG, one of whose units is one of the program's, 1/1024 px; or a PNG
or PDF, where FILE ends in .png or .pdf, or --format says so (by Debian's librsvg2-bin or python3-cairosvg). All of several
formulas are written to FILE-1.svg, FILE-2.svg and so on for a FILE.svg; with --html they are a page with a picture of each,
in their order. To draw formulas within a page of text, take page.py.

With --boxes each element's box stands on it with its baseline and its id. --lines writes a file too, of the boxes and marks as
the program wrote them. Colours (`mathcolor`, `mathbackground`) are carried to the picture, and so are the lines of `menclose`.
A character that the metrics lack is a box, and is told with its element.

The program is crates/mathlay/out/mathlay of this repository, which `rt run` in crates/mathlay has proved and built, or else
the installed `mathlay`. With --program, COMMAND is run in its place: words as a shell parts them, behind which
`layout FILE.metrics TREE.json` is put, and then `paint FILE.metrics TREE.json`.

Glyphs and rules stand where the program's own SVG has them, which `mathlay paint` writes. The boxes and marks of `mathlay layout`
say besides which of them are whose, for colours and for --boxes.
"""

import sys
from pathlib import Path

from companion import command, drawing, render, svg
from companion.command import Fault


def main(argv=None):
    parser = command.parser_of("picture", __doc__)
    parser.add_argument("metrics", metavar="FILE.metrics")
    parser.add_argument("font", metavar="FONT")
    parser.add_argument("formulas", metavar="FORMULA", nargs="+")
    drawing.add_words(parser)
    drawing.add_choice(parser)
    parser.add_argument("--boxes", action="store_true", help="draw boxes, baselines and ids on top")
    parser.add_argument("--html", action="store_true", help="make an HTML page; takes several formulas")
    parser.add_argument("--zoom", metavar="N", type=zoom, default=2.0, help="px of the picture for one px of the formula (2)")
    parser.add_argument("--lines", metavar="FILE", help="write FILE too, whole or not at all: the boxes and marks of one formula")
    parser.add_argument("--format", choices=render.FORMATS, help="what to write, where the name of the output doesn't say it")
    return command.run(parser, work, argv)


def zoom(word):
    """A size that pictures may have."""
    value = float(word)
    if not 0.01 <= value <= 1000:
        raise ValueError
    return value


def work(words):
    """The bytes of the picture or the page."""
    if len(words.formulas) > 1 and not words.html:
        raise Fault("several formulas make a page: say --html")
    studio = drawing.studio_of("picture", words)
    formulas = [formula for path in words.formulas for formula in drawing.formulas_of("picture", path, words)]
    several = len(formulas) > 1
    if several and words.lines:
        raise Fault("several formulas have no one file of lines: leave out --lines")
    if several and not words.html and words.output is None:
        raise Fault("several pictures need names: say -o FILE.svg, which gives FILE-1.svg and so on, or --html for one page")
    figures, lines = [], ""
    for place, formula in enumerate(formulas, 1):
        drawn, lines = studio.picture(formula, f"f{place}" if words.html else "g")
        figures.append((formula.name, drawn.svg(words.zoom, words.boxes)))
    if words.lines:
        command.write(words.lines, lines.encode())
    if words.html:
        return svg.page(figures).encode()
    kind = render.format_of(words.output, words.format)
    if not several:
        return render.rendered(figures[0][1], kind)
    return written(Path(words.output), kind, [picture for _, picture in figures])


def written(path, kind, pictures):
    """Writes each picture to a file of its own, and says in a line how many there are."""
    suffix = path.suffix or f".{kind}"
    for number, picture in enumerate(pictures, 1):
        command.write(path.with_name(f"{path.stem}-{number}{suffix}"), render.rendered(picture, kind))
    command.warn("picture", f"wrote {path.stem}-1{suffix} to {path.stem}-{len(pictures)}{suffix}")
    return command.Output(None)


if __name__ == "__main__":
    sys.exit(main())
