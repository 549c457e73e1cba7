"""Formulas in LaTeX, by pandoc."""

import shutil
import sys
import unittest
from unittest import mock

import formula
from companion import tex
from companion.command import Fault
from tests.common import InFolder, make_font, needs_font_tools, run
from tests.test_picture import GLYPHS, METRICS

needs_pandoc = unittest.skipUnless(shutil.which("pandoc"), "pandoc is missing: Debian's pandoc has it")


class Tex(unittest.TestCase):
    def test_signs_that_stand_between(self):
        for text, made in ((r"x^2 \over 2", r"\frac{x^2}{2}"), (r"1 + {n\choose k}", r"1 + {\binom{n}{k}}"),
                           (r"\left( a \over b \right)", r"\left(\frac{a}{b}\right)"), (r"{a \over {b \over c}}", r"{\frac{a}{{\frac{b}{c}}}}"),
                           (r"\overline{a} \{ x \}", r"\overline{a} \{ x \}"), (r"a \atop b", r"\begin{matrix}a\\b\end{matrix}")):
            self.assertEqual(tex.modern(text), made)

    def test_what_does_not_match(self):
        for text, told in (("{a", "{ isn't closed"), ("a}", "} closes nothing"), (r"{\left( a}", "} closes nothing"),
                           (r"a \over b \over c", "two signs of the kind of")):
            with self.assertRaisesRegex(Fault, told):
                tex.modern(text)


class Formulas(InFolder):
    @needs_pandoc
    def test_mathml(self):
        status, written, errors = run(formula, r"x^2 \over 2", "--mathml")
        self.assertEqual((status, errors), (0, ""))
        self.assertIn(b'<math display="block"', written)
        self.assertIn(b"<mfrac><msup><mi>x</mi><mn>2</mn></msup><mn>2</mn></mfrac>", written)
        self.assertIn(b'display="inline"', run(formula, "x", "--mathml", "--inline")[1])

    @needs_pandoc
    def test_what_pandoc_cannot_read(self):
        self.assert_refused(run(formula, r"\nonsense{x}"), r"pandoc can't read the formula: Could not convert TeX math \nonsense{x}")
        self.assert_refused(run(formula, " "), "the formula is empty")

    @needs_pandoc
    @needs_font_tools
    def test_a_picture(self):
        font = str(self.folder / "font.ttf")
        make_font(font, GLYPHS, {0x31: "one"})
        metrics = self.file("f.metrics", METRICS + "char 0031 one\n")
        painted = '<svg xmlns="http://www.w3.org/2000/svg" viewBox="0 0 100 0">\n' \
            '<use href="#one" transform="translate(0 0) scale(16384)"/>\n</svg>'
        laid = "box 1 math 0 0 100 0 0 0 0\nglyph 0 0 16384 one"
        script = self.file("program.py", f"import sys\nprint({painted!r} if sys.argv[1] == 'paint' else {laid!r})\n")
        words = ("1", "--font", font, "--program", f"{sys.executable} {script}")
        status, written, errors = run(formula, *words, "--metrics", metrics)
        self.assertEqual((status, written.count(b"<use"), errors), (0, 1, ""))
        status, written, errors = run(formula, *words)
        self.assertEqual((status, written.count(b"<use")), (0, 1), errors)

    def test_without_pandoc(self):
        with mock.patch("shutil.which", return_value=None):
            self.assert_refused(run(formula, "x"), "pandoc isn't here")
