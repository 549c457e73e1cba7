"""Pictures of what a program writes. The program is a small one of the test's own: it writes lines that are given to it."""

import re
import shlex
import shutil
import sys
import unittest
from pathlib import Path
from unittest import mock
from xml.etree import ElementTree

import picture
from companion import program
from companion.command import Fault
from companion.drawing import usual_fonts
from companion.marks import Box, Built, Glyph, Rule, pieces_of, read_marks
from companion.metrics import Drawn, Part
from companion.metrics import Glyph as Measured
from companion.painted import read_painted, shared_out
from second import program as engine
from second.metrics_reading import read_metrics
from tests.common import TOP, InFolder, make_font, needs_font_tools, run

# Of each glyph its advance, and its ink as left, bottom, right and top; 1,024 units an em.
GLYPHS = {
    ".notdef": (512, (0, 0, 400, 600)),
    "one": (512, (40, 0, 480, 680)),
    "paren.bot": (500, (50, 0, 350, 600)), "paren.ext": (500, (50, 0, 150, 400)), "paren.top": (500, (50, 0, 350, 600)),
    "fix": (300, (0, -10, 90, 290)), "bracket.ext": (300, (0, 20, 90, 220)),
    "left": (301, (0, 500, 301, 600)), "line": (101, (0, 550, 101, 600)), "middle": (401, (0, 500, 401, 700)),
    "right": (301, (0, 500, 301, 600)),
}
METRICS = """mathlay-metrics 1
upem 1024
line 900 300
xheight 512
""" + "".join(f"glyph {name.replace('.notdef', 'missing')} {advance} {top} {-bottom}\n"
             for name, (advance, (_, bottom, _, top)) in GLYPHS.items()) + """glyph invisible 0 0 0
vassembly one paren.bot FIX 0 200 600
vassembly one paren.ext EXT 200 200 400
vassembly one paren.top FIX 200 0 600
vassembly fix fix FIX 80 80 300
vassembly fix bracket.ext EXT 80 80 200
hassembly middle left FIX 0 50 301
hassembly middle line EXT 50 50 101
hassembly middle middle FIX 50 50 401
hassembly middle line EXT 50 50 101
hassembly middle right FIX 50 0 301
"""

# Three assemblies, and where their pieces stand by hand. A unit is 16 units at size 16,384, 1 at 1,024 and 1/2 at 512.
UPRIGHT = ("built 0 8193 16384 block one 2 2474", [
    # 9600 - 2474 = 7126 above the first; 6400 - 2474 = 3926 above each extender
    ("paren.bot", 0, 8193), ("paren.ext", 0, 1067), ("paren.ext", 0, -2859), ("paren.top", 0, -6785)])
SUNK = ("built 100 0 1024 block fix 5 60", [
    # 300 - 60 = 240, then 200 - 60 = 140 each; the ink of the first ends 10 below, that of the others 20 above their baseline
    ("fix", 100, -10), ("bracket.ext", 100, -220), ("bracket.ext", 100, -360), ("bracket.ext", 100, -500),
    ("bracket.ext", 100, -640), ("bracket.ext", 100, -780)])
SIDEWAYS = ("built 50 -30 512 inline middle 2 10", [
    # halves go up: 301/2 is 151, 101/2 is 51, 401/2 is 201; each less 10
    ("left", 50, -30), ("line", 191, -30), ("line", 232, -30), ("middle", 273, -30), ("line", 464, -30), ("line", 505, -30),
    ("right", 546, -30)])
ASSEMBLIES = (UPRIGHT, SUNK, SIDEWAYS)

SVG = "{http://www.w3.org/2000/svg}"


class Pieces(InFolder):
    def drawn(self):
        from companion.metrics import read_drawn
        return read_drawn(self.file("f.metrics", METRICS))

    def test_three_assemblies_stand_where_the_format_says(self):
        for line, pieces in ASSEMBLIES:
            [built] = read_marks(line + "\n")
            self.assertEqual([(piece.name, piece.x, piece.y) for piece in pieces_of(built, self.drawn())], pieces)

    def test_an_extender_that_is_not_repeated(self):
        [built] = read_marks("built 0 8193 16384 block one 0 800\n")
        self.assertEqual([(piece.name, piece.y) for piece in pieces_of(built, self.drawn())],
                         [("paren.bot", 8193), ("paren.top", 8193 - 8800)])

    def test_lengths_are_rounded_to_the_nearest_unit_and_ties_up(self):
        drawn = Drawn(1000, {}, {})
        self.assertEqual([drawn.scale(value, 500) for value in (-3, -1, 0, 1, 3)], [-1, 0, 0, 1, 2])
        self.assertEqual(drawn.scale(301, 512), 154)

    def test_lines(self):
        self.assertEqual(read_marks("box 1 math 0 -1 2 3 4 5 6\nglyph 1 2 3 one\n"),
                         [Box(1, "math", 0, -1, 2, 3, 4, 5, 6), Glyph(1, 2, 3, "one")])
        for line in ("glyph 1 2 3", "glyph 1 2 x one", "triangle 1", "rule 1 2 3 4 5", "built 1 2 3 block a 2"):
            with self.assertRaisesRegex(Fault, "neither a box nor a mark"):
                read_marks(line)
        with self.assertRaisesRegex(Fault, "no assembly of one along the inline axis"):
            pieces_of(Built(0, 0, 1, "inline", "one", 1, 1), self.drawn())

    def test_what_is_read_of_metrics(self):
        drawn = self.drawn()
        self.assertEqual((drawn.upem, drawn.glyphs["fix"]), (1024, Measured("fix", 300, 290, 10)))
        self.assertEqual(drawn.parts["v", "fix"], [Part("fix", False, 80, 80, 300), Part("bracket.ext", True, 80, 80, 200)])


class Painted(InFolder):
    HEAD = '<svg xmlns="http://www.w3.org/2000/svg" viewBox="0 -3 2 4">\n'
    USE = '<use href="#one" transform="translate(-1 2) scale(3)"/>\n'
    RECT = '<rect x="1" y="-2" width="3" height="4"/>\n'

    def test_glyphs_and_rules(self):
        self.assertEqual(read_painted(self.HEAD + self.USE + self.RECT + "</svg>\n"), [Glyph(-1, 2, 3, "one"), Rule(1, -2, 3, 4)])

    def test_what_is_no_picture(self):
        for text in ("", "range\n", self.HEAD, self.HEAD + self.USE, self.USE + "</svg>\n"):
            with self.assertRaisesRegex(Fault, "painted no picture"):
                read_painted(text)
        with self.assertRaisesRegex(Fault, "neither a glyph nor a rule: <g/>"):
            read_painted(self.HEAD + "<g/>\n</svg>\n")

    def test_marks_get_what_was_painted_of_them(self):
        from companion.metrics import read_drawn
        drawn = read_drawn(self.file("f.metrics", METRICS))
        marks = read_marks("glyph 0 0 16384 fix\nrule 0 0 5 0\nbuilt 0 8193 16384 block one 0 800\n")
        painted = [Glyph(0, 0, 16384, "fix"), Glyph(0, 8193, 16384, "paren.bot"), Glyph(0, -607, 16384, "paren.top")]
        self.assertEqual([pieces for _, pieces in shared_out(marks, painted, drawn)], [painted[:1], [], painted[1:]])
        for other in (painted[:-1], [*painted, painted[0]]):
            with self.assertRaisesRegex(Fault, "painted other marks than it laid out"):
                shared_out(marks, other, drawn)


@needs_font_tools
class Pictures(InFolder):
    def setUp(self):
        super().setUp()
        self.font = str(self.folder / "font.ttf")
        make_font(self.font, GLYPHS, {0x31: "one"})
        self.metrics = self.file("f.metrics", METRICS)
        self.tree = self.file("tree.json", '{"name":"math"}')

    def program(self, text, status=0):
        """A command that writes this text, or paints what it says, and ends with this status."""
        written = f"{self.painted(text)!r} if sys.argv[1] == 'paint' else {text!r}"
        script = self.file("program.py", f"import sys\nsys.stdout.write({written})\nsys.exit({status})\n")
        return f"{shlex.quote(sys.executable)} {shlex.quote(script)}"

    def painted(self, text):
        """The picture of boxes and marks, or the text itself where it isn't of these."""
        from companion.metrics import read_drawn
        try:
            marks = read_marks(text)
            pieces = [piece for mark in marks for piece in (pieces_of(mark, read_drawn(self.metrics)) if isinstance(mark, Built) else [mark])]
        except Fault:
            return text
        lines = [f'<use href="#{it.name}" transform="translate({it.x} {it.y}) scale({it.size})"/>' if isinstance(it, Glyph) else
                 f'<rect x="{it.x}" y="{it.y}" width="{it.width}" height="{it.height}"/>' for it in pieces
                 if isinstance(it, Glyph) or not isinstance(it, Box) and it.width > 0 and it.height > 0]
        return "\n".join(['<svg xmlns="http://www.w3.org/2000/svg" viewBox="0 0 1 1">', *lines, "</svg>", ""])

    def draw(self, text, *words):
        """The picture of what a program wrote, as an element."""
        status, written, errors = run(picture, self.metrics, self.font, self.tree, "--program", self.program(text), *words)
        self.assertEqual((status, errors), (0, ""))
        return ElementTree.fromstring(written)

    def test_pieces_of_three_assemblies(self):
        for line, pieces in ASSEMBLIES:
            svg = self.draw(f"box 1 math 0 0 100 0 0 0 0\n{line}\n")
            found = [(use.get("href"), *map(int, re.match(r"translate\((\S+) (\S+)\)", use.get("transform")).groups()))
                     for use in svg.iter(f"{SVG}use")]
            self.assertEqual(found, [(f"#g-{name}", x, y) for name, x, y in pieces])

    def test_glyphs_rules_and_frame(self):
        svg = self.draw("box 1 math 0 0 8192 14400 4800 10880 0\nglyph 0 0 16384 one\nglyph 5 0 16384 invisible\n"
                        "rule 9000 -100 50 40\nrule 0 0 0 40\n", "--zoom", "1")
        # 2,048 units of margin round the box, and on the right round the rule's end at 9,050
        self.assertEqual(svg.get("viewBox"), "-2048 -16448 13146 23296")
        self.assertEqual((svg.get("width"), svg.get("height")), ("12.837891", "22.75"))
        [use] = svg.iter(f"{SVG}use")
        self.assertEqual((use.get("href"), use.get("transform")), ("#g-one", "translate(0 0) scale(16 -16)"))
        [rule] = svg.iter(f"{SVG}rect")
        self.assertEqual([rule.get(name) for name in ("x", "y", "width", "height")], ["9000", "-100", "50", "40"])
        [outline] = svg.iter(f"{SVG}path")
        self.assertEqual((outline.get("id"), outline.get("d")), ("g-one", "M40 0V680H480V0Z"))

    def test_ink_outside_the_box_is_in_the_picture(self):
        svg = self.draw("box 1 math 0 0 0 0 0 0 0\nglyph -1000 0 1024 fix\n")
        # the ink is from -1000 to -910 and from 290 above to 10 below
        self.assertEqual(svg.get("viewBox"), "-3048 -2338 5096 4396")

    def test_boxes_on_top(self):
        svg = self.draw("box 1 math 0 0 8192 14400 4800 10880 0\nbox 2 mn 10 20 30 -40 10 0 0\n", "--boxes")
        self.assertEqual([text.text for text in svg.iter(f"{SVG}text")], ["1", "2"])
        [frame] = svg.iter(f"{SVG}rect")
        self.assertEqual([frame.get(name) for name in ("x", "y", "width", "height")], ["0", "-14400", "8192", "19200"])

    def test_a_formula_in_mathml_or_in_a_page_is_laid_out_by_its_tree(self):
        told = self.file("told", "")
        echo = self.file("echo.py", f"import sys\nopen({told!r}, 'wb').write(open(sys.argv[3], 'rb').read())\n"
                         "mark = '<use href=\"#one\" transform=\"translate(0 0) scale(1024)\"/>'\n"
                         "head = '<svg xmlns=\"http://www.w3.org/2000/svg\" viewBox=\"0 0 1 1\">'\n"
                         "print('\\n'.join([head, mark, '</svg>']) if sys.argv[1] == 'paint' else 'glyph 0 0 1024 one')\n")
        program = f"{shlex.quote(sys.executable)} {shlex.quote(echo)}"
        tree = b'{"children":[{"name":"mi","text":"\xce\xb1"}],"name":"math"}\n'
        formula = b"<math><mi>&alpha;</mi></math>"
        for text in (formula, b"<p>one: " + formula + b", <math></math>", tree, b" \n" + tree):
            status, written, errors = run(picture, self.metrics, self.font, self.file("formula", text), "--program", program)
            self.assertEqual((status, written.count(b"#g-one")), (0, 1))
            self.assertEqual(errors.count("holds 2 formulas"), text.count(b"one: "))
            self.assertIn("<mi> needs U+1D6FC MATHEMATICAL ITALIC SMALL ALPHA, which the metrics lack: a box is drawn", errors)
            self.assertEqual((self.folder / "told").read_bytes(), text if text.strip() == tree.strip() else tree)
        for text, fault in (("<p>nothing", "holds no formula"), ("[]", "holds no formula"), ("", "holds no formula"),
                            ("<math>\n<mrow>x</mrow></math>", "formula:2:7: text inside <mrow>"), ("<math><mi>", "isn't XML")):
            self.assert_refused(run(picture, self.metrics, self.font, self.file("formula", text), "--program", program), fault)
        self.assert_refused(run(picture, self.metrics, self.font, self.folder / "absent", "--program", program), "there is no such file")

    def test_lines_beside_the_picture(self):
        text = "box 1 math 0 0 1 1 1 1 1\nglyph 0 0 16384 one\n"
        lines = self.folder / "lines.txt"
        self.draw(text, "--lines", lines)
        self.assertEqual(lines.read_text(), text)
        words = (self.metrics, self.font, self.tree)
        for written, status, told in (("range\n", 8, "can't be stored"), ("hello\n", 0, "neither a box nor a mark")):
            outcome = run(picture, *words, "--program", self.program(written, status), "--lines", lines)
            self.assert_refused(outcome, told)
        outcome = run(picture, "--html", *words, self.tree, "--program", self.program(text), "--lines", lines)
        self.assert_refused(outcome, "leave out --lines")
        self.assertEqual(lines.read_text(), text)
        outcome = run(picture, *words, "--program", self.program(text), "--lines", self.folder / "no" / "where")
        self.assert_refused(outcome, "No such file")

    def test_a_page_of_two(self):
        program = self.program("box 1 math 0 0 1 1 1 1 1\nglyph 0 0 16384 one\n")
        other = self.file("a&b.json", "{}")
        status, written, _ = run(picture, "--html", self.metrics, self.font, self.tree, other, "--program", program)
        self.assertEqual((status, written.count(b"<svg"), written.count(b"a&amp;b.json")), (0, 2, 1))
        self.assertEqual(set(re.findall(rb'id="([^"]*)"', written)), {b"f1-one", b"f2-one"})
        self.assert_refused(run(picture, self.metrics, self.font, self.tree, other, "--program", program), "say --html")

    def test_characters_that_the_metrics_lack_are_told_with_their_element(self):
        self.tree = self.file("tree.json", '{"name":"math","children":[{"name":"mi","text":"x"},{"name":"mn","text":"1"},'
                                           '{"name":"mo","text":"1"},{"name":"mtext","text":"x x"}]}')
        program = self.program("box 1 math 0 0 1 1 1 1 1\nglyph 0 0 16384 missing\n")
        metrics = self.file("f.metrics", METRICS + "char 0031 one\nchar 0020 one\n")
        status, written, errors = run(picture, metrics, self.font, self.tree, "--program", program)
        self.assertEqual((status, b"#g-missing" in written), (0, True))
        told = "which the metrics lack: a box is drawn; font_metrics.py --fallback FONT takes it from another font"
        self.assertEqual(errors.splitlines(), [
            f"picture: {self.tree}: element 2: <mi> needs U+1D465 MATHEMATICAL ITALIC SMALL X, {told}",
            f"picture: {self.tree}: element 5: <mtext> needs U+0078 LATIN SMALL LETTER X, 2 times, {told}"])

    def test_an_empty_sign_for_what_the_font_lacks_is_drawn_as_a_box(self):
        make_font(self.font, GLYPHS | {".notdef": (512, None)}, {0x31: "one"})
        svg = self.draw("box 1 math 0 0 100 0 0 0 0\nglyph 0 0 16384 missing\n")
        [path] = svg.iter(f"{SVG}path")
        # 60, 440 and 660 thousandths of 1,024, and a line of 40
        self.assertEqual(path.get("d"), "M61 0H451V676H61ZM102 41V635H410V41Z")

    def test_a_second_font_is_scaled_to_the_em_of_the_first(self):
        second = str(self.folder / "second.ttf")
        make_font(second, {".notdef": (512, None), "two": (500, (100, -20, 300, 400))}, {0x32: "two"}, upem=512, math=False)
        program = self.program("box 1 math 0 0 100 0 0 0 0\nglyph 0 0 16384 fallback1.two\nglyph 9 0 16384 fallback1.two.spaced\n")
        words = (self.metrics, self.font, self.tree, "--program", program)
        svg = ElementTree.fromstring(run(picture, *words, "--fallback", second)[1])
        paths = {path.get("id"): path.get("d") for path in svg.iter(f"{SVG}path")}
        self.assertEqual(paths, {"g-fallback1.two": "M200 -40V800H600V-40Z", "g-fallback1.two.spaced": "M0 -40V800H400V-40Z"})
        self.assert_refused(run(picture, *words), "the metrics were made with 1 more: name each")

    def test_colours_and_enclosures(self):
        self.tree = self.file("tree.json", '{"name":"math","children":[{"name":"mrow","attributes":{"mathcolor":"red"},"children":['
                              '{"name":"mn"},{"name":"mn","attributes":{"mathcolor":"#00f","mathbackground":"rgb(1,2,3)"}}]},'
                              '{"name":"mn","attributes":{"mathcolor":"url(x)"}},'
                              '{"name":"menclose","attributes":{"notation":"box updiagonalstrike"}}]}')
        svg = self.draw("box 1 math 0 0 90 9 9 9 9\nbox 2 mrow 0 0 9 9 9 9 9\nrule 1 1 1 1\nbox 3 mn 0 0 9 9 9 9 9\nglyph 0 0 16384 one\n"
                        "box 4 mn 10 0 9 8 7 9 9\nglyph 0 0 16384 one\nbox 5 mn 20 0 9 9 9 9 9\nglyph 0 0 16384 one\n"
                        "box 6 menclose 1000 0 9000 900 900 4000 2000\n")
        self.assertEqual([use.get("fill") for use in svg.iter(f"{SVG}use")], ["red", "#00f", None])
        behind, rule = svg.iter(f"{SVG}rect")
        self.assertEqual([behind.get(name) for name in ("x", "y", "width", "height", "fill")], ["10", "-8", "9", "15", "rgb(1,2,3)"])
        self.assertEqual(rule.get("fill"), "red")
        lines = [path.get("d") for path in svg.iter(f"{SVG}path") if path.get("class") == "enclosure"]
        self.assertEqual(lines, ["M1410 -3590H9590V1590H1410Z", "M1410 1590L9590 -3590"])

    def test_all_formulas_of_a_page_get_files_of_their_own(self):
        page = self.file("page.html", "<p><math><mn>1</mn></math> and <math><mn>1</mn></math>")
        metrics = self.file("f.metrics", METRICS + "char 0031 one\n")
        program = self.program("box 1 math 0 0 100 0 0 0 0\nglyph 0 0 16384 one\n")
        words = (metrics, self.font, page, "--program", program, "--all")
        status, written, errors = run(picture, *words, "-o", self.folder / "out.svg")
        self.assertEqual((status, written, errors), (0, b"", "picture: wrote out-1.svg to out-2.svg\n"))
        self.assertEqual((self.folder / "out-1.svg").read_bytes(), (self.folder / "out-2.svg").read_bytes())
        self.assert_refused(run(picture, *words), "several pictures need names")
        status, written, errors = run(picture, *words[:-1], "--number", "2")
        self.assertEqual((status, errors), (0, ""))

    @unittest.skipUnless(shutil.which("rsvg-convert"), "rsvg-convert is missing: Debian's librsvg2-bin has it")
    def test_png_and_pdf(self):
        program = self.program("box 1 math 0 0 8192 9000 0 0 0\nglyph 0 0 16384 one\n")
        for name, start in (("out.png", b"\x89PNG"), ("out.pdf", b"%PDF")):
            words = (self.metrics, self.font, self.tree, "--program", program)
            self.assertEqual(run(picture, *words, "-o", self.folder / name), (0, b"", ""))
            self.assertTrue((self.folder / name).read_bytes().startswith(start))
            status, written, _ = run(picture, *words, "--format", name[-3:])
            self.assertTrue(written.startswith(start))

    def test_refusals_of_the_program(self):
        target = self.folder / "out.svg"
        for text, status, told in (("tree 2 4\n", 4, "element 2: it has a key other than the four; right would be the keys"),
                                   ("metrics 3 9\n", 3, "f.metrics, line 3: something that is given once was given before: `line 900"),
                                   ("", 7, "memory was refused (status 7)"), ("range\n", 8, "can't be stored"),
                                   ("", 1, "which is none of mathlay's"), ("hello\n", 0, "neither a box nor a mark: hello")):
            outcome = run(picture, self.metrics, self.font, self.tree, "--program", self.program(text, status), "-o", target)
            self.assert_refused(outcome, told)
        self.assertFalse(target.exists())

    def test_programs_that_are_none(self):
        for command, told in (("/nowhere/program", "No such file"), ("'", "No closing quotation"), (" ", "names no program")):
            self.assert_refused(run(picture, self.metrics, self.font, self.tree, "--program", command), told)

    def test_metrics_of_another_font(self):
        program = self.program("box 1 math 0 0 1 1 1 1 1\nglyph 0 0 16384 two\n")
        self.assert_refused(run(picture, self.metrics, self.font, self.tree, "--program", program), "has no glyph two")
        wide = self.file("wide.metrics", METRICS.replace("upem 1024", "upem 1000"))
        self.assert_refused(run(picture, wide, self.font, self.tree, "--program", program), "don't go together")
        for text, told in (("glyph a 1 x 2\n", "line 1 isn't one"), ("", "has no line upem")):
            self.assert_refused(run(picture, self.file("bad", text), self.font, self.tree, "--program", program), told)

    def test_words(self):
        self.assertEqual(run(picture, "--help")[0], 0)
        for words in (("a", "b"), ("a", "b", "c", "--zoom", "0"), ("a", "b", "c", "--zoom", "nan")):
            status, _, errors = run(picture, *words)
            self.assertEqual((status, errors.count("\n")), (2, 1))


# Three assemblies of the samples, which are in Latin Modern Math with 1,000 units an em, and where their pieces stand by hand.
FENCE = ("matrix", "uni239", [
    # built 34137 47438 16384 block parenleft 7 379: 1495 units are 24494, less 379 is 24115; 498 are 8159, less 379 is 7780
    ("uni239D", 34137, 47438), ("uni239C", 34137, 23323), ("uni239C", 34137, 15543), ("uni239C", 34137, 7763),
    ("uni239C", 34137, -17), ("uni239C", 34137, -7797), ("uni239C", 34137, -15577), ("uni239C", 34137, -23357),
    ("uni239B", 34137, -31137)])
BRACE = ("braces_and_accents", "uni23DF", [
    # built 0 2615 11469 inline uni23DF 3 805: 1002 units are 11492, 994 are 11400 and 2003 are 22972; each less 805
    ("uni23DF.lft", 0, 2615), ("uni23DF.ex", 10687, 2615), ("uni23DF.ex", 21282, 2615), ("uni23DF.ex", 31877, 2615),
    ("uni23DF.md", 42472, 2615), ("uni23DF.ex", 64639, 2615), ("uni23DF.ex", 75234, 2615), ("uni23DF.ex", 85829, 2615),
    ("uni23DF.rt", 96424, 2615)])
SURD = ("nested_roots", "(?:uni23B7|radical.(?:ex|tp))", [
    # built 4555 20991 16384 block radical 2 1878: 1820 units are 29819, less 1878 is 27941; 640 are 10486, less 1878 is 8608
    ("uni23B7", 4555, 20991), ("radical.ex", 4555, -6950), ("radical.ex", 4555, -15558), ("radical.tp", 4555, -24166)])


class Samples(unittest.TestCase):
    def test_pieces_of_three_assemblies(self):
        for name, glyphs, pieces in (FENCE, BRACE, SURD):
            picture_of_it = (TOP / "samples" / f"{name}.svg").read_text()
            found = re.findall(rf'<use href="#g-({glyphs}[^"]*)" transform="translate\((\S+) (\S+)\)', picture_of_it)
            self.assertEqual([(glyph, int(x), int(y)) for glyph, x, y in found[:len(pieces)]], pieces)

    def test_the_rule_of_a_radical_begins_at_the_top_of_its_surd(self):
        # the last piece of the surd stands at -24166 and is 620 units high, which are 10158
        self.assertIn(f'y="{-24166 - 10158}" width="174374"', (TOP / "samples" / "nested_roots.svg").read_text())


class OnDisk:
    """Files of the system, for the second engine."""

    open = staticmethod(lambda name: Path(name).open("rb"))


def by_engine(_program, verb, inputs):
    """What the second engine writes, in the place of a program that is run."""
    written = []
    status = engine.run([verb, inputs.metrics, inputs.tree], OnDisk, written.append)
    return b"".join(written).decode() if status == 0 else f"status {status}"


@needs_font_tools
@unittest.skipUnless(usual_fonts(), "no Latin Modern Math: Debian's fonts-lmodern has it")
class StoredPictures(unittest.TestCase):
    """The picture of each sample but `arabic`, which shows a second font."""

    def test_each_is_what_the_second_engine_draws(self):
        metrics, font = TOP / "samples" / "latin-modern-math.metrics", usual_fonts()[0]
        known = read_metrics(metrics.read_bytes())
        with mock.patch.object(program, "run", by_engine), mock.patch.object(engine, "read_metrics", lambda _: known):
            for stored in sorted((TOP / "samples").glob("*.svg")):
                with self.subTest(stored.name):
                    if stored.stem != "arabic":
                        drawn = run(picture, metrics, font, stored.with_suffix(".json"), "--program", "second")
                        self.assertTrue(drawn == (0, stored.read_bytes(), ""), "not as stored: samples/README.md says how it is drawn")
