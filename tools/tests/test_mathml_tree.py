"""Trees of formulas in MathML and in HTML."""

import json
import unittest

import mathml_tree
from tests.common import TOP, InFolder, run

MATHML = "http://www.w3.org/1998/Math/MathML"


class Trees(InFolder):
    def tree(self, text, *words, name="formula.mml"):
        """The tree that the tool makes of a text."""
        status, written, errors = run(mathml_tree, self.file(name, text), *words)
        self.assertEqual((status, errors), (0, ""))
        return json.loads(written)

    def refused(self, text, told, *words):
        self.assert_refused(run(mathml_tree, self.file("formula", text), *words), told)

    def test_canonical_form(self):
        path = self.file("f", '<math id="b" display="block"> <mi>x</mi>\n<mrow/><mtext> \t</mtext><mn>"</mn></math>')
        self.assertEqual(run(mathml_tree, path)[1].decode(), (
            '{"attributes":{"display":"block","id":"b"},"children":[{"name":"mi","text":"x"},{"name":"mrow"},'
            '{"name":"mtext","text":" \\t"},{"name":"mn","text":"\\""}],"name":"math"}\n'))

    def test_prefixes_entities_comments_and_marked_sections(self):
        text = (f'<?xml version="1.0"?><!DOCTYPE m:math PUBLIC "-//W3C//DTD MathML 2.0//EN" "mathml2.dtd">\n'
                f'<m:math xmlns:m="{MATHML}" xmlns:l="urn:l" l:href="#" xml:lang="en"><!-- <m:mi/> --><m:mi>&alpha;<!-- -->'
                '<![CDATA[<&]]></m:mi><m:mo>&lt;&LT;&amp;&AMP;&#x3B2;&NotEqualTilde;</m:mo><l:mi/></m:math>')
        self.assertEqual(self.tree(text), {
            "attributes": {"l:href": "#", "xml:lang": "en"}, "name": "math", "children": [
                {"name": "mi", "text": "\u03b1<&"}, {"name": "mo", "text": "<<&&\u03b2\u2242\u0338"}, {"name": "l:mi"}]})

    def test_annotations_are_kept(self):
        text = ('<math><semantics><mn>1</mn><annotation encoding="TeX">a <!-- -->b</annotation><annotation-xml>'
                '<apply>\n<ci>x</ci> y<cn/></apply></annotation-xml></semantics></math>')
        self.assertEqual(self.tree(text)["children"][0]["children"][1:], [
            {"attributes": {"encoding": "TeX"}, "name": "annotation", "text": "a b"},
            {"name": "annotation-xml", "children": [{"name": "apply", "children": [
                {"name": "ci", "children": [{"name": "mtext", "text": "x"}]}, {"name": "mtext", "text": " y"}, {"name": "cn"}]}]}])

    def test_formulas_of_a_page(self):
        text = ('<!DOCTYPE html><title>&lt;math&gt;</title><script>"<math>"</script><!-- <math> --><p>one<br>'
                '<MATH Display=block xmlns="x"><mi>&ouml;<![CDATA[<b>]]></mi><mspace width="1px" /></MATH>'
                '<p><m:math><m:mn dir>2</m:mn></m:math></p><math></math>')
        self.assertEqual(self.tree(text, "--number", "1"), {"attributes": {"display": "block"}, "name": "math", "children": [
            {"name": "mi", "text": "\u00f6<b>"}, {"attributes": {"width": "1px"}, "name": "mspace"}]})
        self.assertEqual(self.tree(text, "--number", "2"), {
            "name": "math", "children": [{"attributes": {"dir": ""}, "name": "mn", "text": "2"}]})
        self.assertEqual(self.tree(text, "--number", "3"), {"name": "math"})
        self.refused(text, "holds no formula 4: it has 3", "--number", "4")
        self.refused(text, "ask for different things", "--number", "3", "--all")
        status, written, errors = run(mathml_tree, self.file("f", text))
        self.assertEqual((status, errors.count("\n")), (0, 1))
        self.assertIn("holds 3 formulas, of which the first is taken", errors)
        status, written, errors = run(mathml_tree, self.file("f", text), "--all")
        self.assertEqual((status, errors, len(written.splitlines())), (0, "", 3))

    def test_html_inside_an_annotation(self):
        text = "<p><math><semantics><mn>1</mn><annotation-xml><p>a<br>b</p></annotation-xml></semantics></math>"
        self.assertEqual(self.tree(text)["children"][0]["children"][1]["children"][0]["children"][1], {"name": "br"})

    def test_encodings(self):
        formula = "<math><mi>\u00e9</mi></math>"
        expected = {"name": "math", "children": [{"name": "mi", "text": "\u00e9"}]}
        self.assertEqual(self.tree(formula.encode("utf-16")), expected)
        self.assertEqual(self.tree(f'<?xml version="1.0" encoding="ISO-8859-1"?>{formula}'.encode("latin-1")), expected)
        self.assertEqual(self.tree(("<p>" + formula).encode("utf-16")), expected)
        self.assertEqual(self.tree(f'<meta charset="latin-1">{formula}'.encode("latin-1")), expected)
        self.assertEqual(self.tree(("\ufeff<p>" + formula).encode()), expected)
        self.refused(f"<p>{formula}".encode("latin-1"), "isn't text")
        self.refused(f'<meta charset="klingon">{formula}', "isn't text")

    def test_what_the_format_refuses_is_told_with_its_place(self):
        for text, told in (
                ("<math>\n<mrow>\nx</mrow></math>", ":3:1: text inside <mrow>"),
                ("<math><mi>x<mn>1</mn></mi></math>", ":1:12: <mn> inside <mi>"),
                ("<math>\n <mi\u00e9/></math>", ":2:2: element 'mi\u00e9'"),
                ('<math>\n <mi _a="1"/></math>', ":2:2: attribute '_a'"),
                (f"<math><{'a' * 65}/></math>", ":1:7: element"),
                (f"<math>{'<mrow>' * 60}{'</mrow>' * 60}</math>", ":1:361: stands at level 61"),
                (f"<math>{'<mi/>' * 65_536}</math>", ": is element 65,537"),
                (f"<math>\n<mi>{'x' * 65_537}</mi></math>", ":2:1: a text of 65,537 bytes"),
                (f'<math>\n<mi a="{"x" * 65_537}"/></math>', ":2:1: a text of 65,537 bytes"),
                (f"<math>{('<mi>' + 65_536 * 'x' + '</mi>') * 64}</math>", "names and texts up to here"),
                ("<math>" + "<mi>" * 20_000 + "</mi>" * 20_000 + "</math>", "inside <mi>"),
                ("<math>" + ("<mi>" + '"' * 60_000 + "</mi>") * 40 + "</math>", "bytes of JSON")):
            with self.subTest(told):
                self.refused(text, told)

    def test_most_that_the_format_takes(self):
        self.assertEqual(len(self.tree(f"<math>{'<mi/>' * 65_535}</math>")["children"]), 65_535)
        self.tree(f"<math>{'<mrow>' * 59}{'</mrow>' * 59}</math>")
        self.tree(f"<math><mi>{'x' * 65_536}</mi></math>")

    def test_what_is_no_xml(self):
        for text, told in (
                ("<math><mi>&nothing;</mi></math>", ":1:11: "),
                ("<math><mi></mo></math>", ":1:13: isn't XML: mismatched tag"),
                ("<m:math/>", "unbound prefix"),
                ("<math/><math/>", "junk after document element"),
                ('<!DOCTYPE math [<!ENTITY e SYSTEM "/etc/passwd">]><math><mi>&e;</mi></math>', "isn't"),
                ("<!DOCTYPE math [<!ENTITY a '" + 'x' * 999 + "'>" + "".join(
                    f"<!ENTITY {after} '{f'&{before};' * 99}'>" for before, after in zip("abcdef", "bcdefg"))
                 + "]><math><mi>&g;</mi></math>", "isn't XML"),
                ('<?xml version="1.0" encoding="klingon"?><math/>', "isn't XML"),
                ("<?xml version='1.0'?><p>", "isn't XML"), ("<?xml version='1.0'?><p/>", "holds no formula")):
            with self.subTest(told):
                self.refused(text, told)

    def test_a_page_without_a_formula(self):
        for text in ("", "<p>nothing here", "<p>&lt;math&gt;", "mathlay-metrics 1\n"):
            self.refused(text, "holds no formula: it has no element math")
        self.refused("<p><math><mi>x</p></math>", ":1:15: </p> comes where <mi> of line 1 isn't closed")

    def test_cut_at_any_of_fifty_places(self):
        whole = (TOP / "samples" / "quadratic.mml").read_bytes().rstrip()
        page = b"<!DOCTYPE html>\n<p>A formula: " + whole[whole.index(b"<math"):]
        target = self.folder / "out.json"
        target.write_bytes(b"before")
        for text in (whole, page):
            for place in range(50):
                cut = self.file("cut", text[:place * (len(text) - 1) // 49])
                self.assert_refused(run(mathml_tree, cut, "-o", target), "cut")
        self.assertEqual(target.read_bytes(), b"before")
        self.assertEqual(sorted(path.name for path in self.folder.iterdir()), ["cut", "out.json"])

    def test_files_and_words(self):
        self.assert_refused(run(mathml_tree, self.folder / "absent"), "No such file")
        self.assert_refused(run(mathml_tree, self.file("f", "<math/>"), "-o", self.folder / "no" / "where"), "No such file")
        self.assert_refused(run(mathml_tree, self.file("f", "<math/>"), "-o", self.folder), "directory")
        for word in ("0", "x", "-1", "\u0663"):
            status, _, errors = run(mathml_tree, "--number", word)
            self.assertEqual((status, errors.count("\n")), (2, 1))
        self.assertEqual(run(mathml_tree, "--help")[0], 0)


class Samples(unittest.TestCase):
    def test_each_formula_gives_its_tree(self):
        formulas = sorted((TOP / "samples").glob("*.mml"))
        self.assertGreaterEqual(len(formulas), 10)
        for formula in formulas:
            with self.subTest(formula.name):
                self.assertEqual(run(mathml_tree, formula), (0, formula.with_suffix(".json").read_bytes(), ""))
                picture = formula.with_suffix(".svg").read_bytes()
                self.assertTrue(picture.startswith(b"<svg ") and len(picture) < 100_000)
