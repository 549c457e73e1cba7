"""Pages whose formulas give way to pictures. The program is a small one of the test's own, but where the built one is there."""

import re
import shlex
import shutil
import subprocess
import sys
import time
import unittest

import page
from companion.drawing import usual_fonts
from companion.pages import formulas_in, page_text
from companion.program import BUILT
from tests.browser import CHROMIUM, NO_CHROMIUM, SIZES, baselines, ink_below, lines_of_two, screenshot
from tests.common import TOP, InFolder, make_font, needs_font_tools, run
from tests.pages import tex
from tests.test_picture import GLYPHS, METRICS

# Answers a script as `mathlay edit` does: a glyph for each element that was inserted, and refusals where a text asks for them.
PROGRAM = """
import json, sys
open(sys.argv[0] + ".runs", "a").write("run\\n")
children, names, next_id = [], {}, 2
def count(element):
    return 1 + sum(map(count, element.get("children", [])))
for line in open(sys.argv[4]):
    command = json.loads(line)
    if command["op"] == "show":
        print("shown")
        print("box 1 math 0 0 8192 14400 4800 10880 0")
        for place, child in enumerate(children):
            print("box", child, names[child], place * 8192, "0 8192 14400 4800 10880 0")
            print("glyph", place * 8192, "0 16384 one")
    elif command["op"] == "insert" and "refuse" in line:
        print("refused range")
    elif command["op"] == "insert" and "stop" in line:
        sys.exit(7)
    else:
        if command["op"] == "insert":
            children.insert(command["index"], next_id)
            names[next_id] = command["element"]["name"]
            next_id += count(command["element"])
        elif command["op"] == "remove":
            children.remove(command["node"])
        print("ok")
"""


class Spans(InFolder):
    """Where the formulas of a page's text begin and end."""

    def found(self, text):
        found, _ = formulas_in("p", text)
        return [(text[one.start:one.end] if one.node else "broken", str(one.fault or "")) for one in found]

    def test_whole_ones(self):
        text = ("<title>a <math> there</title><!-- <math> --><script>'<math>'</script><p>a <math><mi>x</mi></math >b<m:math><m:mi>y</m:mi>"
                "</m:math><MATH/><svg><metadata><math><mi>q</mi></math></metadata></svg>")
        self.assertEqual([span for span, _ in self.found(text)],
                         ["<math><mi>x</mi></math >", "<m:math><m:mi>y</m:mi></m:math>", "<MATH/>"])

    def test_broken_ones_and_whole_ones_behind_them(self):
        whole = "<math><mi>w</mi></math>"
        for text, told in ((f"<p>\n<math><mi>x</mo></math>{whole}", "p:2:12: </mo> comes where <mi> of line 2 isn't closed"),
                           (f"<math><mi>x</mi>\n<p>{whole}", "p:2:1: <p> stands in the formula that begins in line 1"),
                           (f"<p><math><mrow>{whole}", "p:1:4: the formula that begins here isn't closed")):
            with self.subTest(told):
                found = self.found(text)
                self.assertEqual([span for span, _ in found], ["broken", whole])
                self.assertIn(told, found[0][1])

    def test_html_in_an_annotation_breaks_nothing(self):
        text = "<math><semantics><mi>x</mi><annotation-xml><p>a</p></annotation-xml></semantics></math>"
        self.assertEqual(self.found(text), [(text, "")])

    def test_encodings(self):
        for data, name, is_xml in ((b"<p>\xc3\xa9", "utf-8", False), (b"\xef\xbb\xbf<p>\xc3\xa9", "utf-8-sig", False),
                                   ('<?xml version="1.0" encoding="ISO-8859-1"?><p>\u00e9'.encode("latin-1"), "ISO-8859-1", True),
                                   ('<meta charset="latin-1"><p>\u00e9'.encode("latin-1"), "latin-1", False),
                                   ("<p>\u00e9".encode("utf-16"), "utf-16", False)):
            text, found, xml = page_text("p", data)
            self.assertEqual((text[-1], found, xml), ("\u00e9", name, is_xml))


@needs_font_tools
class Pages(InFolder):
    def setUp(self):
        super().setUp()
        self.font = str(self.folder / "font.ttf")
        make_font(self.font, GLYPHS, {0x31: "one"})
        self.metrics = self.file("f.metrics", METRICS + "char 0031 one\n")
        self.script = self.file("program.py", PROGRAM)
        self.program = f"{shlex.quote(sys.executable)} {shlex.quote(self.script)}"

    def ran(self, path, *words):
        return run(page, path, "--metrics", self.metrics, "--font", self.font, "--program", self.program, *words)

    def made(self, text, *words, name="in.html"):
        """The status, the page and what was told, without the line that counts."""
        status, written, errors = self.ran(self.file(name, text), *words)
        *told, last = errors.splitlines()
        self.assertRegex(last, r"^page: drew \d+ of \d+ formulas in [0-9.]+ s, \d+ a second \([0-9.]+ s of processor time\)$")
        return status, written, [line for line in told if not re.fullmatch(r"page: \d+ of \d+ formulas, \d+ a second", line)]

    def test_a_picture_on_the_baseline(self):
        status, written, told = self.made('<body><p>a <math id="e" class="c"><mn>1</mn></math> b</body>')
        self.assertEqual((status, told), (0, []))
        self.assertEqual(written.decode(), (
            '<body><svg aria-hidden="true" style="position:absolute;width:0;height:0;overflow:hidden"><defs>\n'
            '<path id="mathlay1-1" transform="scale(16 -16)" d="M40 0V680H480V0Z"/>\n</defs></svg>'
            '<p>a <svg class="mathlay c" id="e" role="img" aria-label="1" viewBox="0 -10880 8192 10880" width="0.5em" height="0.664062em" '
            'fill="currentColor" style="vertical-align:0em;overflow:visible"><metadata><math class="c"><mn>1</mn></math></metadata>'
            '<use href="#mathlay1-1" x="0" y="0"/></svg> b</body>'))

    def test_outlines_once_a_page_and_one_process(self):
        _, written, _ = self.made("<p>" + "<math display='block'><mn>1</mn></math>" * 50)
        self.assertEqual((written.count(b"<path"), written.count(b"<use")), (1, 50))
        self.assertEqual(written.count(b"display:block"), 50)
        self.assertEqual((self.folder / "program.py.runs").read_text(), "run\n")

    def test_xhtml(self):
        text = ('<?xml version="1.0"?><html xmlns="http://www.w3.org/1999/xhtml" xmlns:m="http://www.w3.org/1998/Math/MathML"><head>'
                '<title/></head><body><p><m:math alttext="one &lt; two"><m:mn>1</m:mn></m:math></p></body></html>')
        status, written, _ = self.made(text, name="in.xhtml")
        from xml.etree import ElementTree
        root = ElementTree.fromstring(written)
        svg = [each for each in root.iter("{http://www.w3.org/2000/svg}svg") if each.get("role")]
        self.assertEqual([each.get("aria-label") for each in svg], ["one < two"])
        self.assertEqual(len(list(svg[0].iter("{http://www.w3.org/1998/Math/MathML}mn"))), 1)
        [use] = svg[0].iter("{http://www.w3.org/2000/svg}use")
        self.assertEqual(use.get("{http://www.w3.org/1999/xlink}href"), "#mathlay1-1")

    def test_names(self):
        formula = ("<math><semantics><mrow><mn>1</mn><mn> 1\n</mn></mrow><annotation encoding='application/x-tex'>%s</annotation>"
                   "</semantics></math>")
        for text, name in ((formula % "a \n&lt; b", "a &lt; b"), (formula.replace("x-tex", "other") % "a", "1 1"), ("<math></math>", "formula")):
            self.assertIn(f'aria-label="{name}"'.encode(), self.made(text)[1])

    def test_broken_ones_are_told_and_left_and_the_others_go_on(self):
        good = "<math><mn>1</mn></math>"
        bad = ["<math><mi>x</mo></math>", '<math><mtext>refuse</mtext></math>', "<math><mtext>stop</mtext></math>",
               "<math><mrow>1</mrow></math>"]
        text = good + "\n" + "".join(f"{each}{good}\n" for each in bad)
        status, written, told = self.made(text)
        self.assertEqual(status, 1)
        for each in bad:
            self.assertIn(each.encode(), written)
        self.assertEqual(written.count(b'role="img"'), 5)
        for line, words in ((2, "</mo> comes where"), (3, "refused range: a number of the edited tree's layout would be out of range"),
                            (4, "memory was refused"), (5, "text inside <mrow>")):
            [found] = [each for each in told if f"in.html:{line}:" in each and words in each]
            self.assertTrue(found.endswith("; it is left as it stood"), found)

    def test_ids_of_later_formulas(self):
        """Colours go by the ids of a formula's own tree, whatever was laid out before it."""
        text = "<math><mn>1</mn><mrow><mn>1</mn></mrow></math><math mathcolor='red'><mn>1</mn><mn mathcolor='blue'>1</mn></math>"
        _, written, _ = self.made(text)
        self.assertEqual(re.findall(rb'<use[^>]*fill="(\w+)"', written), [b"red", b"blue"])

    def test_html_within_a_formula_is_kept_as_text(self):
        text = "<math><semantics><mn>1</mn><annotation-xml encoding='text/html'><p>a</p></annotation-xml></semantics></math>"
        self.assertIn(b"<metadata>&lt;math&gt;", self.made(text)[1])
        self.assertNotIn(b"metadata", self.made(text, "--no-mathml")[1])

    def test_what_was_drawn_is_left_alone(self):
        first = self.made("<body><math><mn>1</mn></math></body>")[1]
        self.assert_refused(self.ran(self.file("again.html", first)), "holds no formula")
        text = first.replace(b"</body>", b"<math><mn>1</mn></math></body>")
        self.assertIn(b'id="mathlay2-1"', self.made(text)[1])

    def test_what_is_no_page(self):
        for text, told in (("<p>no formula", "holds no formula"), (b"\xff", "isn't text")):
            self.assert_refused(self.ran(self.file("in.html", text)), told)
        self.assert_refused(run(page, self.file("in.html", "<math></math>"), "--metrics", self.metrics), "name the font too")
        self.metrics = self.file("m", "bad\n")
        self.assert_refused(self.ran(self.file("in.html", "<math></math>")), "has no line upem")

    def test_metrics_that_the_program_refuses_are_told_once(self):
        script = self.file("refusing.py", "import sys\nprint('metrics 1 2')\nsys.exit(3)\n")
        self.program = f"{shlex.quote(sys.executable)} {shlex.quote(script)}"
        self.assert_refused(self.ran(self.file("in.html", "<math></math>" * 9)), "f.metrics, line 1: line 1 isn't the words mathlay-metrics and 1")


LATIN_MODERN = usual_fonts()
NEEDS = [(BUILT.is_file(), f"{BUILT.relative_to(TOP)} isn't there: `rt ci` builds it"),
         (shutil.which("pandoc"), "pandoc is missing: Debian's pandoc has it"),
         (LATIN_MODERN, "Latin Modern Math is missing: Debian's fonts-lmodern has it"), (CHROMIUM, NO_CHROMIUM)]


@needs_font_tools
class FiveHundred(InFolder):
    """A page of 500 formulas that pandoc made of a TeX file, drawn by the built program and looked at in a browser."""

    def setUp(self):
        super().setUp()
        for there, reason in NEEDS:
            if not there:
                self.skipTest(reason)

    def test_each_stands_on_its_baseline(self):
        source = self.file("in.tex", tex(500))
        html = self.folder / "in.html"
        subprocess.run(["pandoc", "-f", "latex", "-t", "html5", "--mathml", "-s", source, "-o", html], check=True, capture_output=True)
        began = time.monotonic()
        status, written, errors = run(page, html)
        seconds = time.monotonic() - began
        self.assertEqual(status, 0, errors)
        self.assertIn("drew 500 of 500 formulas", errors)
        found = baselines(self.file("out.html", written))
        self.assertEqual(len(found), 450)
        self.assertLess(max(map(abs, found)), 0.5)
        print(f"page.py: 500 formulas in {seconds:.1f} s, {500 / seconds:.0f} a second; {errors.splitlines()[-1]}")

    def test_ink_ends_where_that_of_the_letters_does(self):
        status, written, errors = run(page, self.file("in.html", lines_of_two()))
        self.assertEqual(status, 0, errors)
        picture = str(self.folder / "lines.png")
        screenshot(self.file("out.html", written), picture, 200, 60 * len(SIZES))
        found = ink_below(picture)
        self.assertEqual(len(found), len(SIZES))
        self.assertLessEqual(max(map(abs, found)), 0.5, found)
