"""What becomes of MathML 3 and of what converters write."""

import json
import unittest

import mathml_tree
from companion.letters import letters
from tests.common import TOP, InFolder, run


class Modern(InFolder):
    def tree(self, inside, *told):
        """The elements of the tree that is made of a formula; what is told of it has these words, a line each."""
        status, written, errors = run(mathml_tree, self.file("f", f"<math>{inside}</math>"))
        self.assertEqual((status, len(errors.splitlines())), (0, len(told)), errors)
        for words, line in zip(told, errors.splitlines()):
            self.assertIn(words, line)
        return json.loads(written).get("children", [])

    def short(self, inside, *told):
        """The same in short: names with texts, or with what stands in them."""
        def of(element):
            text = element.get("text", "")
            return f"{element['name']}({text or ' '.join(map(of, element.get('children', [])))})"
        return " ".join(map(of, self.tree(inside, *told)))

    def test_fences(self):
        kids = "<mi>a</mi><mi>b</mi><mi>c</mi>"
        for attributes, made in (("", "mo(() mi(a) mo(,) mi(b) mo(,) mi(c) mo())"),
                                 ('open="[" close="|" separators=" ; "', "mo([) mi(a) mo(;) mi(b) mo(;) mi(c) mo(|)"),
                                 ('open="" close=" " separators=""', "mi(a) mi(b) mi(c)"),
                                 ('separators=";,:"', "mo(() mi(a) mo(;) mi(b) mo(,) mi(c) mo())")):
            self.assertEqual(self.short(f"<mfenced {attributes}>{kids}</mfenced>"), f"mrow({made})")
        self.assertEqual(self.short("<mfenced/>"), "mrow(mo(() mo()))")
        [row] = self.tree("<mfenced><mi>a</mi></mfenced>")
        self.assertEqual(row["children"][0]["attributes"], {"form": "prefix", "stretchy": "true", "symmetric": "true"})

    def test_letters(self):
        self.assertEqual(letters("double-struck", "NRa0+"), "\u2115\u211d\U0001d552\U0001d7d8+")
        self.assertEqual(letters("script", "BeA"), "\u212c\u212f\U0001d49c")
        self.assertEqual(letters("bold", "\u0391\u03b1\u2202"), "\U0001d6a8\U0001d6c2\U0001d6db")
        self.assertEqual(self.short('<mi mathvariant="bold">x</mi><mn mathvariant="monospace">1</mn>'), "mi(\U0001d431) mn(\U0001d7f7)")
        self.assertEqual(self.short('<mstyle mathvariant="fraktur"><mi>g</mi><mi mathvariant="normal">g</mi><mo>+</mo></mstyle>'),
                         "mstyle(mi(\U0001d524) mi(g) mo(+))")
        self.assertEqual(self.tree('<mi mathvariant="normal">x</mi>'), [
            {"attributes": {"mathvariant": "normal"}, "name": "mi", "text": "x"}])
        # what the program makes italic by itself stays as it is
        self.assertEqual(self.short('<mi mathvariant="italic">x</mi><mi mathvariant="italic">sin</mi>'), "mi(x) mi(\U0001d460\U0001d456\U0001d45b)")
        self.assertEqual(self.short("<mi>\u03d5</mi><mi>\u2202</mi><mo>\u2202</mo>"), "mi(\U0001d719) mi(\U0001d715) mo(\u2202)")
        self.short('<mi mathvariant="looped">x</mi>', "`mathvariant` looped has no letters of mathematics")

    def test_enclosures(self):
        self.assertEqual(self.short('<menclose notation="radical"><mi>x</mi></menclose>'), "msqrt(mi(x))")
        [made] = self.tree('<menclose notation=" box  top"><mi>x</mi></menclose>')
        self.assertEqual((made["name"], made["attributes"]), ("menclose", {"notation": "box top"}))
        self.assertEqual(self.short("<menclose><mi>x</mi></menclose>"), "menclose(merror(merror(merror(mrow(mi(x))))))")

    def test_labels_of_rows_stand_behind(self):
        text = ("<mtable><mlabeledtr><mtd><mn>1</mn></mtd><mtd><mi>a</mi></mtd></mlabeledtr>"
                "<mtr><mtd><mi>b</mi></mtd><mtd><mi>c</mi></mtd></mtr></mtable>")
        self.assertEqual(self.short(text), "mtable(mtr(mtd(mi(a)) mtd() mtd(mn(1))) mtr(mtd(mi(b)) mtd(mi(c))))")

    def test_words_and_old_names(self):
        [made] = self.tree('<mfrac linethickness="thick" color="red"><mi fontweight="bold">a</mi><mspace width="thickmathspace"/></mfrac>')
        self.assertEqual(made["attributes"], {"linethickness": "200%", "mathcolor": "red"})
        self.assertEqual(made["children"][0]["text"], "\U0001d41a")
        self.assertEqual(made["children"][1]["attributes"], {"width": "0.277778em"})
        [made] = self.tree('<mrow style="color: #f00; background-color:blue"><mi/></mrow>')
        self.assertEqual((made["attributes"]["mathcolor"], made["attributes"]["mathbackground"]), ("#f00", "blue"))

    def test_fractions_paddings_and_accents(self):
        self.assertEqual(self.short('<mfrac bevelled="true"><mi>a</mi><mi>b</mi></mfrac>'), "mrow(mi(a) mo(/) mi(b))")
        self.assertEqual(self.short('<mpadded width="+1em"><mi>a</mi></mpadded>'), "mpadded(mi(a) mspace())")
        self.short('<mpadded height="+1em" depth="50%"><mi>a</mi></mpadded>', "`height` of <mpadded>", "`depth` of <mpadded>")
        [made] = self.tree('<mover><mi>x</mi><mrow><mo accent="true">^</mo></mrow></mover>')
        self.assertEqual(made["attributes"], {"accent": "true"})
        [made] = self.tree('<munderover accent="false"><mi>x</mi><mo accent="true">_</mo><mo accent="true">^</mo></munderover>')
        self.assertEqual(made["attributes"], {"accent": "false", "accentunder": "true"})

    def test_what_has_no_effect_is_told_once_for_each_kind(self):
        cells = '<mtable columnalign="left"><mtr>' + '<mtd columnspan="2" rowalign="top" id="x" data-y="1"><mi>a</mi></mtd>' * 3 + "</mtr></mtable>"
        self.tree(cells, "f:1:7: `columnalign` on <mtable> has no effect", "`rowalign` on <mtd> has no effect (3 times; this is the first)")
        self.tree("<mstack><mn>1</mn></mstack><mi>x<malignmark/></mi><mi><mglyph alt='y'/></mi>", "<mstack> is laid out as a row",
                  "<malignmark> has no effect", "<mglyph> is shown as its `alt`")

    def test_as_it_is(self):
        text = '<math><mfenced open="["><mi mathvariant="bold">x</mi></mfenced></math>'
        status, written, errors = run(mathml_tree, self.file("f", text), "--as-it-is")
        self.assertEqual((status, errors), (0, ""))
        self.assertEqual(json.loads(written)["children"][0]["name"], "mfenced")

    def test_an_annotation_is_left_alone(self):
        made = self.tree("<semantics><mi>a</mi><annotation-xml><mfenced><mi mathvariant='bold' foo='1'>x</mi></mfenced></annotation-xml>"
                         "</semantics>")
        self.assertEqual(made[0]["children"][1]["children"][0]["name"], "mfenced")


class Letters(unittest.TestCase):
    def test_each_letter_is_one_that_unicode_has(self):
        import unicodedata
        from companion.letters import GREEK_ORDER, VARIANTS
        for variant in sorted(VARIANTS - {"normal"}):
            for letter in letters(variant, "ABCDEFGHIJKLMNOPQRSTUVWXYZabcdefghijklmnopqrstuvwxyz0123456789" + GREEK_ORDER):
                self.assertNotEqual(unicodedata.name(letter, ""), "", (variant, letter))


class Document(unittest.TestCase):
    def test_it_names_what_has_an_effect(self):
        from companion.enclosures import NOTATIONS
        from companion.letters import VARIANTS
        from companion.mathml3 import EFFECTS, EVERYWHERE
        text = (TOP / "docs" / "MATHML.md").read_text(encoding="utf-8")
        passed_over = {"fence", "separator", "actiontype"}
        strikes = {name for name in NOTATIONS if name.endswith(("strike", "arrow"))}
        for name in {*EVERYWHERE, *EFFECTS, *set().union(*EFFECTS.values()), *VARIANTS, *NOTATIONS} - passed_over - strikes:
            self.assertIn(f"`{name}`", text)
