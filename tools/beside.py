#!/usr/bin/env python3
"""Draws a formula in MathML, and below it what Chromium shows of the same text in the same fonts.

    beside.py FILE.metrics FONT FORMULA [--fallback FONT].. [--zoom N] [--program COMMAND] -o FILE.png

FILE.metrics, FONT, --fallback and --program are as picture.py takes them. FORMULA is a file of MathML
that holds one formula. The picture is a PNG, a screenshot of Chromium, which draws the outlines that
picture.py makes and its own layout. Needs Debian's package chromium.
"""

import shutil
import subprocess
import sys
import tempfile
from pathlib import Path

from companion import command, drawing
from companion.command import Fault
from companion.svg import PX
from picture import zoom

NAMES = ("chromium", "chromium-browser", "google-chrome")
FLAGS = ["--headless", "--no-sandbox", "--disable-gpu", "--hide-scrollbars", "--allow-file-access-from-files",
         "--virtual-time-budget=10000"]
SECONDS = 400
# The px of text in which a formula stands, and how many px a caption and the margins take.
TEXT, CAPTION, MARGIN = 16, 30, 12
# How much wider and higher than the program's picture the browser's may be.
ROOM = 1.25
PAGE = """<!DOCTYPE html>
<meta charset="utf-8">
<style>
{faces}
body {{ margin: 0 0 0 6px; background: white; font: 14px sans-serif; color: #444 }}
p {{ margin: 0; height: {caption}px; line-height: {caption}px }}
svg {{ display: block }}
div {{ display: inline-block; color: black; font-size: {size}px }}
math {{ font-family: {families} }}
</style>
<p>mathlay</p>
{picture}
<p>Chromium</p>
<div>{formula}</div>
"""


def main(argv=None):
    parser = command.parser_of("beside", __doc__)
    parser.add_argument("metrics", metavar="FILE.metrics")
    parser.add_argument("font", metavar="FONT")
    parser.add_argument("formula", metavar="FORMULA")
    drawing.add_words(parser)
    drawing.add_choice(parser)
    parser.add_argument("--zoom", metavar="N", type=zoom, default=2.0, help="px for one px of the formula (2)")
    return command.run(parser, work, argv)


def work(words):
    """The bytes of the picture."""
    browser = next(filter(None, map(shutil.which, NAMES)), None)
    if not browser:
        raise Fault("no Chromium is here: install Debian's chromium")
    studio = drawing.studio_of("beside", words)
    [formula] = drawing.formulas_of("beside", words.formula, words)
    picture = studio.picture(formula)[0]
    _, _, width, height = (length * words.zoom / PX for length in picture.frame())
    size = round(width * ROOM) + MARGIN, round(height * (1 + ROOM)) + 2 * CAPTION + MARGIN
    page = page_of([words.font, *words.fallback], picture.svg(words.zoom, False), text_of(words.formula), words.zoom)
    return screenshot(browser, page, size)


def text_of(path):
    """The element `math` of a file as it is written; raises a Fault where there is none."""
    text = command.read(path).decode("utf-8", "replace")
    start, end = text.find("<math"), text.rfind("</math>")
    if start < 0 or end < 0:
        raise Fault(f"{path}: holds no MathML that a browser could show")
    return text[start:end + len("</math>")]


def page_of(fonts, picture, formula, scale):
    """The page with both, the fonts as the files that were named."""
    families = [f"font{number}" for number in range(len(fonts))]
    faces = [f'@font-face {{ font-family: {name}; src: url("{Path(path).resolve().as_uri()}") }}'
             for name, path in zip(families, fonts)]
    return PAGE.format(faces="\n".join(faces), families=", ".join(families), picture=picture, formula=formula,
                       size=TEXT * scale, caption=CAPTION)


def screenshot(browser, page, size):
    """What a browser shows of a page, as a PNG; raises a Fault."""
    with tempfile.TemporaryDirectory(prefix="mathlay-") as room:
        path, picture = Path(room) / "page.html", Path(room) / "page.png"
        path.write_text(page, encoding="utf-8")
        shot = [f"--window-size={size[0]},{size[1]}", f"--screenshot={picture}", path.as_uri()]
        try:
            subprocess.run([browser, *FLAGS, *shot], check=True, capture_output=True, timeout=SECONDS)
            return picture.read_bytes()
        except (OSError, subprocess.SubprocessError) as fault:
            raise Fault(f"{browser}: {fault}") from None


if __name__ == "__main__":
    sys.exit(main())
