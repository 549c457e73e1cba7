"""Metrics of fonts that are made here."""

import re
import unittest
from collections import Counter
from types import SimpleNamespace

import font_metrics
from companion.command import Fault
from companion.constants import CONSTANTS, SCALE_DOWNS
from companion.fonts import fit_names
from companion.metrics import FIT_NAME, Part, Stretch
from companion.sources import Shape
from companion.stand_ins import read_stand_ins
from tests.common import TOP, Arcs, InFolder, make_font, needs_font_tools, run

GLYPHS = {
    ".notdef": (500, (0, 0, 400, 600)),
    "x": (580, (10, -8, 560, 448)),
    "paren": (400, (50, -256, 350, 768)),
    "paren.v1": (480, (50, -512, 350, 1024)),
    "bot": (500, (50, 0, 350, 600)),
    "ext": (500, (50, 0, 150, 400)),
    "odd,name": (640, (0, 500, 640, 720)),
    "space": (250, None),
    "unused": (111, None),
}
CHARACTERS = {0x28: "paren", 0x5E: "odd,name", 0x78: "x", 0x20: "space", 0x4E00: "unused"}
VARIANTS = {("v", "paren"): [("paren", 1025), ("paren.v1", 1537)], ("h", "x"): [("odd,name", 640)]}
PARTS = {("v", "paren"): [("bot", False, 0, 200, 600), ("ext", True, 200, 200, 400)]}
# The characters of the font, and those that another one of its glyphs shows.
STAND_INS = "".join(f"char {code} {name}\n" for code, name in (
    ("0020", "space"), ("0028", "paren"), ("005E", "odd_name.6"), ("0078", "x"), ("00A0", "space"), ("00AD", "blank.00AD"),
    ("02C6", "odd_name.6"), ("0302", "odd_name.6"), *((f"{code:04X}", f"blank.{code:04X}") for code in range(0x2000, 0x2007)),
    ("2007", "space"), ("2008", "space"), *((code, f"blank.{code}") for code in ("2009", "200A", "200B", "200C", "200D", "202F",
    "205F", "2060")), ("2061", "invisible"), ("2062", "invisible"), ("2063", "invisible"), ("2064", "invisible")))


@needs_font_tools
class OfAFont(InFolder):
    def font(self, name="font.ttf", glyphs=GLYPHS, characters=CHARACTERS, **more):
        path = str(self.folder / name)
        make_font(path, glyphs, characters, **more)
        return path

    def test_every_line(self):
        font = self.font(variants=VARIANTS, parts=PARTS, italics={"x": 12}, accents={"x": 300, "paren": -5})
        constants = "".join(f"const {name} {70 if name in SCALE_DOWNS else 10 * place}\n" for place, name in enumerate(CONSTANTS, 1))
        expected = (
            "mathlay-metrics 1\n# made by tools/font_metrics.py of Test Math Version 7\n# Nobody's\nupem 1024\nline 900 300\n"
            f"xheight 512\noverlap 50\n{constants}"
            "glyph missing 500 600 0 0\nglyph x 580 448 8 12 300\nglyph paren 400 768 256 0 -5\nglyph paren.v1 480 1024 512 0\n"
            "glyph bot 500 600 0 0\nglyph ext 500 400 0 0\nglyph odd_name.6 640 720 -500 0\nglyph space 250 0 0 0\n"
            "glyph invisible 0 0 0 0\n" + STAND_INS +
            "hvariant x odd_name.6 640\nvvariant paren paren 1025\nvvariant paren paren.v1 1537\n"
            "vassembly paren bot FIX 0 200 600\nvassembly paren ext EXT 200 200 400\n")
        status, written, errors = run(font_metrics, font)
        self.assertEqual((status, errors), (0, ""))
        kept = [line for line in written.decode().splitlines() if not line.startswith(("glyph blank", "char 1D"))]
        self.assertEqual(kept, expected.splitlines())

    def test_ink_is_rounded_outward(self):
        arcs = {"up": Arcs(10, 110, 101, 40), "down": Arcs(10, 110, 100, 1), "x": Arcs(10, 110, 897, 13)}
        font = self.font(glyphs=GLYPHS | {name: (580, arc) for name, arc in arcs.items()},
                         characters=CHARACTERS | {0x61: "up", 0x62: "down"})
        lines = run(font_metrics, font)[1].decode().splitlines()
        # The arcs reach up to 50.5, 50 and 448.5 units, and down to 20, 0.5 and 6.5.
        for line in ("glyph up 580 51 20 0", "glyph down 580 50 1 0", "glyph x 580 449 7 0"):
            self.assertIn(line, lines)

    def test_typographic_line_where_the_font_asks(self):
        self.assertIn(b"\nline 800 200\n", run(font_metrics, self.font(typo=True))[1])

    def test_output_file(self):
        target = self.folder / "out.metrics"
        self.assertEqual(run(font_metrics, self.font(), "-o", target), (0, b"", ""))
        self.assertEqual(target.read_bytes(), run(font_metrics, self.folder / "font.ttf")[1])
        self.assertEqual(sorted(path.name for path in self.folder.iterdir()), ["font.ttf", "out.metrics"])

    def test_operators_are_added(self):
        lines = self.file("ops", "# remark\n\noperator 003D infix Default inline\noperator 0021+0021 postfix E block\n")
        written = run(font_metrics, self.font(), "--operators", lines)[1]
        self.assertTrue(written.endswith(b"\noperator 003D infix Default inline\noperator 0021+0021 postfix E block\n"))

    def test_operator_lines_that_are_none(self):
        font = self.font()
        for text in ("operator 003D infix N inline", "operator 3D infix A inline", "operator D800 infix A block",
                     "operator 10000+0021 infix A block", "operator 110000 infix A block", "op", "operator 003D infix A"):
            lines = self.file("ops", "\n" + text + "\n")
            self.assert_refused(run(font_metrics, font, "--operators", lines), "line 2 isn't an operator line")
        twice = self.file("ops", "operator 002b infix A block\noperator 0002B infix B block\n")
        self.assert_refused(run(font_metrics, font, "--operators", twice), "line 2 has an operator and form that stood before")

    def test_no_math_table(self):
        self.assert_refused(run(font_metrics, self.font(math=False)), "has no MATH table")

    def test_no_font(self):
        self.assert_refused(run(font_metrics, self.file("none", "mathlay-metrics 1\n")), "isn't an OpenType font")
        self.assert_refused(run(font_metrics, self.file("empty", "")), "isn't an OpenType font")
        self.assert_refused(run(font_metrics, self.folder / "absent"), "No such file")
        self.assert_refused(run(font_metrics, self.folder), "directory")

    def test_no_character_of_mathematics(self):
        self.assert_refused(run(font_metrics, self.font(characters={0x4E00: "unused"})), "shows no character")

    def test_cut_at_any_of_fifty_places(self):
        whole = (self.folder / self.font(variants=VARIANTS, parts=PARTS)).read_bytes()
        target = self.folder / "out.metrics"
        target.write_bytes(b"before")
        for place in range(50):
            cut = self.file("cut.ttf", whole[:place * (len(whole) - 4) // 49])
            self.assert_refused(run(font_metrics, cut, "-o", target), "cut.ttf")
        self.assertEqual(target.read_bytes(), b"before")
        self.assertEqual(len(list(self.folder.iterdir())), 3)

    def test_damaged_tables(self):
        whole = bytearray((self.folder / self.font(variants=VARIANTS)).read_bytes())
        for table in (b"head", b"maxp", b"cmap", b"hmtx"):
            entry = whole.index(table)
            bad = bytearray(whole)
            bad[entry + 12:entry + 16] = b"\0\0\0\1"
            self.assert_refused(run(font_metrics, self.file("bad.ttf", bytes(bad))), "can't be read as a font")

    def test_what_the_format_cannot_hold_is_told(self):
        glyphs = GLYPHS | {f"v{number}": (10, None) for number in range(70)}
        kerns = {"x": {"TopRight": ([5, 5], [1, 2, 3]), "TopLeft": (list(range(17)), [0] * 18), "BottomLeft": ([-40, 9], [-7, 0, 70_000 - 65_536])},
                 "unused": {"TopRight": ([], [1])}}
        font = self.font(glyphs=glyphs, kerns=kerns, variants={
            ("v", "paren"): [(f"v{number}", number) for number in range(70)]}, parts={("v", "x"): [("ext", True, 1, 1, 9)] * 17})
        status, written, errors = run(font_metrics, font)
        self.assertEqual(status, 0)
        self.assertEqual(written.count(b"vvariant"), 64)
        self.assertNotIn(b"vassembly", written)
        self.assertEqual([line.removeprefix(f"font_metrics: {font}: left out: ") for line in errors.splitlines()], [
            "variants past the 64th of a glyph (6)", "assemblies of more than 16 parts",
            "corner kerns whose heights don't rise", "corner kerns of more than 16 heights"])
        self.assertTrue(written.startswith(b"mathlay-metrics 2\n"))
        self.assertEqual([line for line in written.split(b"\n") if line.startswith(b"kern")], [b"kern x BL -7 -40 0 9 4464"])

    def test_most_glyphs_that_a_font_file_can_count(self):
        """The number of glyphs has 16 bits in a font file: 65,535 is the most."""
        glyphs = GLYPHS | {f"g{number}": (7, None) for number in range(65_535 - len(GLYPHS))}
        status, written, errors = run(font_metrics, self.font(glyphs=glyphs, variants=VARIANTS, named=False))
        self.assertEqual((status, errors), (0, ""))
        self.assertEqual(written.count(b"\nglyph "), 7 + written.count(b"\nglyph blank."))


class Glyphs(unittest.TestCase):
    def test_a_65536th_glyph_is_left_out_and_told(self):
        order = [f"g{number}" for number in range(65_536)]
        sources = SimpleNamespace(first=SimpleNamespace(names=order), names=[(0, name) for name in order])
        losses = font_metrics.Losses()
        stretches = {("v", Shape(0, "g1")): Stretch([(Shape(0, name), 1) for name in order], [])}
        used = font_metrics.shapes_used(sources, {}, stretches, losses)
        self.assertEqual(used, [Shape(0, name) for name in order[:65_534]])
        self.assertEqual(losses.lines(), ["left out: glyphs past the 65,535 that the format holds (2)"])

    def test_what_names_a_glyph_that_is_left_out_goes_too(self):
        metrics = SimpleNamespace(characters={}, stretches={})
        sources = SimpleNamespace(name=lambda shape: shape.glyph)
        a, b, c = (Shape(0, name) for name in "abc")
        stretches = {("v", a): Stretch([(b, 1), (c, 2)], [Part(c, True, 0, 0, 9)]), ("h", c): Stretch([(a, 3)], [])}
        font_metrics.add_references(metrics, sources, {0x61: a, 0x63: c}, stretches, {a, b})
        self.assertEqual(metrics.stretches, {("v", "a"): Stretch([("b", 1)], [])})
        self.assertEqual([metrics.characters.get(code) for code in (0x61, 0x63, 0x2062)], ["a", None, "invisible"])

    def test_names_fit_one_to_one(self):
        order = ["odd", "missing", "invisible", "a b", "a_b", "a_b.3", "x" * 70, "x" * 70 + "y", "", "\u00e9"]
        names = fit_names(order)
        self.assertEqual(list(names.values())[0], "missing")
        self.assertEqual([names["a_b"], names["a_b.3"], names["a b"]], ["a_b", "a_b.3", "a_b.13"])
        self.assertEqual(len(set(names.values()) | {"invisible"}), len(order) + 1)
        self.assertTrue(all(FIT_NAME.fullmatch(name) for name in names.values()), names)

    def test_cut_values(self):
        losses = font_metrics.Losses()
        self.assertEqual([losses.cut(value, (0, 9), "things") for value in (-1, 0, 9, 10)], [0, 0, 9, 9])
        self.assertEqual(losses.lines(), ["brought within 0 and 9: things (2)"])


PLAIN = {".notdef": (500, None), "a": (500, (50, 0, 450, 448)), "odd": (300, (0, 500, 300, 560))}


@needs_font_tools
class StandIns(InFolder):
    """What shows the characters that a font lacks."""

    def made(self, *words):
        status, written, errors = run(font_metrics, *words)
        self.assertEqual(status, 0, errors)
        lines = [line.split() for line in written.decode().splitlines()]
        characters = {words[1]: words[2] for words in lines if words[0] == "char"}
        glyphs = {words[1]: " ".join(words[2:]) for words in lines if words[0] == "glyph"}
        return characters, glyphs, errors, written.decode()

    def font(self, name, glyphs, characters, **more):
        path = str(self.folder / name)
        make_font(path, glyphs, characters, **more)
        return path

    def test_plain_letters_for_those_of_mathematics(self):
        characters = self.made(self.font("a.ttf", PLAIN, {0x61: "a"}))[0]
        self.assertEqual([characters.get(code) for code in ("1D44E", "1D41A", "1D44F")], ["a", "a", None])

    def test_an_empty_sign_for_what_the_font_lacks_becomes_a_box(self):
        self.assertEqual(self.made(self.font("a.ttf", PLAIN, {0x61: "a"}, upem=1000))[1]["missing"], "500 660 0 0")

    def test_a_combining_mark_gets_room(self):
        glyphs = PLAIN | {"over": (0, (-400, 600, -100, 640)), "wide": (0, (-700, 600, -100, 640))}
        font = self.font("a.ttf", glyphs, {0x61: "a", 0x305: "over"}, accents={"over": -250},
                         variants={("h", "over"): [("over", 300), ("wide", 600)]})
        characters, measured, _, text = self.made(font)
        self.assertEqual((characters["203E"], characters["0305"]), ("over.spaced", "over"))
        # its ink begins at 0 and ends at its advance; the accent position moves with it
        self.assertEqual(measured["over.spaced"], "300 640 -600 0 150")
        self.assertIn("\nhvariant over.spaced over.spaced 300\nhvariant over.spaced wide.spaced 600\n", text)

    def test_what_looks_the_same_goes_before_a_fallback_font_and_that_before_what_is_alike(self):
        first = self.font("a.ttf", PLAIN, {0x61: "a", 0xB7: "odd"})
        second = self.font("b.ttf", PLAIN, {0x1D44E: "a", 0x22C5: "odd", 0x62: "a"}, upem=2048, math=False)
        characters, glyphs, errors, text = self.made(first, "--fallback", second)
        self.assertEqual([characters[code] for code in ("0061", "1D44E", "22C5", "0062", "1D44F")],
                         ["a", "fallback1.a", "odd", "fallback1.a", "fallback1.a"])
        # 2,048 units an em become 1,024: half of all lengths
        self.assertEqual(glyphs["fallback1.a"], "250 224 0 0")
        self.assertIn("# fallback 1: Test Math Version 7\n", text)
        self.assertIn("a fallback font shows (", errors)

    def test_a_sign_that_cannot_grow_takes_the_growth_of_one_that_looks_the_same(self):
        glyphs = PLAIN | {"over": (0, (-400, 600, -100, 640)), "wide": (0, (-700, 600, -100, 640)), "macron": (300, (0, 600, 300, 640))}
        growing = {"variants": {("h", "over"): [("over", 300), ("wide", 600)]}}
        font = self.font("a.ttf", glyphs, {0x61: "a", 0xAF: "macron", 0x305: "over"}, **growing)
        self.assertIn("\nhvariant macron over.spaced 300\nhvariant macron wide.spaced 600\n", self.made(font)[3])
        first = self.font("b.ttf", glyphs, {0x61: "a", 0xAF: "macron"})
        self.assertNotIn("variant", self.made(first)[3])
        self.assertIn("\nhvariant macron fallback1.over.spaced 300\n", self.made(first, "--fallback", font)[3])

    def test_a_sign_that_cannot_grow_takes_the_growth_of_the_same_sign_in_a_fallback_font(self):
        glyphs = PLAIN | {"surd": (400, (0, -100, 400, 700)), "tall": (500, (0, -700, 500, 1400))}
        growing = {("v", "surd"): [("surd", 800), ("tall", 2100)]}
        other = self.font("b.ttf", glyphs, {0x61: "a", 0x221A: "surd"}, variants=growing)
        lines = "\nvvariant surd fallback1.surd 800\nvvariant surd fallback1.tall 2100\n"
        self.assertIn(lines, self.made(self.font("a.ttf", glyphs, {0x61: "a", 0x221A: "surd"}), "--fallback", other)[3])
        # one that grows by itself keeps its own growth
        own = self.font("c.ttf", glyphs, {0x61: "a", 0x221A: "surd"}, variants={("v", "surd"): [("tall", 2100)]})
        self.assertIn("\nvvariant surd tall 2100\n", self.made(own, "--fallback", other)[3])
        self.assertNotIn("vvariant surd fallback1", self.made(own, "--fallback", other)[3])

    def test_a_second_font_alone_has_no_table(self):
        lone = self.font("b.ttf", PLAIN, {0x61: "a"}, math=False)
        self.assert_refused(run(font_metrics, lone), "may fill in for another by --fallback")

    def test_characters_that_a_formula_needs_are_told_with_their_element(self):
        font = self.font("a.ttf", PLAIN, {0x61: "a"})
        formula = self.file("f.mml", "<math>\n<mi>a</mi><mo>\u222e</mo><mphantom><mn>7</mn></mphantom><mo>\u222e</mo></math>")
        errors = self.made(font, "--formula", formula)[2]
        self.assertEqual(errors, f"font_metrics: {formula}:2:11: <mo> needs U+222E CONTOUR INTEGRAL, 2 times, which the metrics lack\n")

    def test_every_line_of_the_table(self):
        table = read_stand_ins()
        self.assertEqual(table.poorer[0x1D465][-1], 0x78)
        self.assertEqual(table.same[0x203E][0], 0xAF)
        bad = self.file("t", "# head\n203E = 00AF\n203E is 00AF\n")
        with self.assertRaisesRegex(Fault, "line 3 is none of the table"):
            read_stand_ins(bad)


@needs_font_tools
class Parts(InFolder):
    """Parts of assemblies whose stated length isn't that of their ink."""

    def setUp(self):
        super().setUp()
        glyphs = GLYPHS | {"left": (400, (30, 100, 330, 140)), "line": (400, (0, 100, 400, 140))}
        parts = {("v", "paren"): [("bot", False, 0, 200, 700), ("ext", True, 300, 300, 500)],
                 ("h", "x"): [("left", False, 0, 90, 400), ("line", True, 90, 90, 400)]}
        self.font = str(self.folder / "font.ttf")
        make_font(self.font, glyphs, CHARACTERS, parts=parts)

    def test_they_are_counted(self):
        _, written, errors = run(font_metrics, self.font)
        self.assertIn("3 of 4 parts of assemblies have a stated length that isn't their ink's, so what is built may have gaps", errors)
        self.assertIn(b"\nvassembly paren bot FIX 0 200 700\n", written)

    def test_they_are_measured(self):
        _, written, errors = run(font_metrics, self.font, "--measure-parts")
        self.assertIn("3 of 4 parts", errors)
        for line in (b"vassembly paren bot FIX 0 200 600", b"vassembly paren ext EXT 300 300 400", b"hassembly x line EXT 90 90 400",
                     b"hassembly x left.spaced FIX 0 90 300", b"glyph left.spaced 300 140 -100 0"):
            self.assertIn(b"\n" + line + b"\n", written)


class OperatorDictionary(unittest.TestCase):
    def setUp(self):
        self.lines = font_metrics.read_operators(TOP / "tools" / "operators.txt")

    def test_counts_of_the_standard(self):
        counts = Counter(line.split()[3] for line in self.lines)
        self.assertEqual(counts, {"A": 313, "B": 109, "C": 64, "D": 52, "E": 40, "F": 30, "G": 30, "H": 27, "I": 22, "J": 22,
                                  "K": 7, "L": 6, "M": 3, "Default": 16})

    def test_one_axis_for_each_operator(self):
        axes = {(line.split()[1], line.split()[4]) for line in self.lines}
        self.assertEqual(len(axes), len({text for text, _ in axes}))
        self.assertEqual(Counter(axis for _, axis in axes)["inline"], 110)

    def test_form_of_each_category(self):
        forms = {(line.split()[3], line.split()[2]) for line in self.lines}
        words = {"A": "infix", "B": "infix", "C": "infix", "D": "prefix", "E": "postfix", "F": "prefix", "G": "postfix",
                 "H": "prefix", "I": "postfix", "J": "prefix", "K": "infix", "L": "prefix", "M": "infix", "Default": "infix"}
        self.assertEqual(dict(forms), words)
        self.assertEqual(len(forms), len(words))

    def test_a_file_that_is_not_there(self):
        with self.assertRaisesRegex(Fault, "No such file"):
            font_metrics.read_operators("nowhere")


class WithoutFontTools(InFolder):
    def test_it_is_said_in_one_line(self):
        from companion import fonts
        kept, fonts.TTFont = fonts.TTFont, None
        try:
            self.assert_refused(run(font_metrics, "any"), "python3-fonttools")
        finally:
            fonts.TTFont = kept

    def test_help_and_wrong_words(self):
        status, written, _ = run(font_metrics, "--help")
        self.assertEqual(status, 0)
        self.assertTrue(re.search(rb"MATH table", written))
        status, _, errors = run(font_metrics)
        self.assertEqual((status, errors.count("\n")), (2, 1))
