"""The picture of a formula with the kerns of a font and without, laid out and painted by the second engine."""

import re
import shlex
import sys
import unittest
from xml.etree import ElementTree

import kerns
from tests.common import TOP, InFolder, make_font, needs_font_tools, run

GLYPHS = {".notdef": (512, (0, 0, 400, 600)), "V": (600, (10, 0, 590, 700)), "one": (512, (40, 0, 480, 680))}
CHARACTERS = {0x56: "V", 0x31: "one"}
FORMULA = "<math><msup><mtext>V</mtext><mn>1</mn></msup></math>"
SVG = "{http://www.w3.org/2000/svg}"


class WithoutKerns(unittest.TestCase):
    def test_version_and_lines(self):
        metrics = b"# of a font\nmathlay-metrics 2\nupem 9\nkern V TR -1\nkern V BL 0 1 2\nchar 0056 V\n"
        self.assertEqual(kerns.without_kerns(metrics), b"# of a font\nmathlay-metrics 1\nupem 9\nchar 0056 V\n")


@needs_font_tools
class Pictures(InFolder):
    def drawn(self, corners, *words):
        font = str(self.folder / "font.ttf")
        make_font(font, GLYPHS, CHARACTERS, kerns=corners)
        program = f"{shlex.quote(sys.executable)} {shlex.quote(str(TOP / 'tools' / 'second'))}"
        return run(kerns, font, self.file("formula", FORMULA), "--program", program, *words)

    def test_one_above_the_other(self):
        status, written, errors = self.drawn({"V": {"TopRight": ([], [-100])}}, "--zoom", "1")
        self.assertEqual(status, 0, errors)
        wide = re.search(r"^kerns: (\d+) units wide with kerns, and (\d+) without$", errors, re.MULTILINE)
        # 100 design units of 1024 an em are 1,600 units at 16 px
        self.assertEqual(int(wide[2]) - int(wide[1]), 1600)
        whole = ElementTree.fromstring(written)
        self.assertEqual([text.text for text in whole.iter(f"{SVG}text")], ["with kerns", "without"])
        above, below = whole.findall(f"{SVG}svg")
        self.assertLess(float(above.get("y")) + float(above.get("height")), float(below.get("y")))
        [(base, script), (same, other)] = [
            [int(re.match(r"translate\((-?\d+) ", use.get("transform"))[1]) for use in picture.iter(f"{SVG}use")]
            for picture in (above, below)]
        self.assertEqual((base, script), (same, other - 1600))
        names = [path.get("id") for path in whole.iter(f"{SVG}path")]
        self.assertEqual(len(names), len(set(names)), names)

    def test_a_font_without_kerns(self):
        self.assertIn("has no kerns for the corners of scripts", self.drawn(None)[2])

    def test_the_formula_of_the_picture_is_there(self):
        self.assertIn(b"<math>", kerns.FORMULA.read_bytes())


if __name__ == "__main__":
    unittest.main()
