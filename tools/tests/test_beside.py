"""A formula beside what Chromium shows of it, laid out and painted by the second engine."""

import shlex
import struct
import sys
import unittest

import beside
from tests.browser import CHROMIUM, NO_CHROMIUM
from tests.common import TOP, InFolder, make_font, needs_font_tools, run

GLYPHS = {".notdef": (512, (0, 0, 400, 600)), "one": (512, (40, 0, 480, 680))}
METRICS = """mathlay-metrics 1
upem 1024
line 900 300
xheight 512
glyph missing 512 600 0
glyph one 512 680 0
char 0031 one
"""
FORMULA = "<!-- one --><math dir='rtl'><mn>1</mn></math>\n"


@needs_font_tools
class Beside(InFolder):
    def setUp(self):
        super().setUp()
        self.font = str(self.folder / "font.ttf")
        make_font(self.font, GLYPHS, {0x31: "one"})

    def drawn(self, formula, *words):
        program = f"{shlex.quote(sys.executable)} {shlex.quote(str(TOP / 'tools' / 'second'))}"
        files = self.file("f.metrics", METRICS), self.font, self.file("formula.mml", formula)
        return run(beside, *files, "--program", program, *words)

    @unittest.skipUnless(CHROMIUM, NO_CHROMIUM)
    def test_both_are_in_one_picture(self):
        status, written, errors = self.drawn(FORMULA, "--zoom", "4")
        self.assertEqual((status, errors), (0, ""))
        self.assertEqual(written[:8], b"\x89PNG\r\n\x1a\n")
        # 8 px of a digit and twice 2 of margin, four times and a quarter more; 1200 / 1024 ems of a line
        self.assertEqual(struct.unpack(">II", written[16:24]), (72, 277))

    def test_the_text_that_the_browser_gets(self):
        path = self.file("formula.mml", FORMULA)
        self.assertEqual(beside.text_of(path), "<math dir='rtl'><mn>1</mn></math>")
        page = beside.page_of([self.font, "/x y.otf"], "<svg/>", beside.text_of(path), 2)
        for part in ('src: url("file:///x%20y.otf")', "font-family: font0, font1", "font-size: 32px", "<svg/>"):
            self.assertIn(part, page)

    @unittest.skipUnless(CHROMIUM, NO_CHROMIUM)
    def test_a_tree_is_nothing_for_a_browser(self):
        self.assert_refused(self.drawn('{"name":"math"}'), "holds no MathML")


if __name__ == "__main__":
    unittest.main()
