"""The editor in a page: what keys do to a formula. An engine in Python lays it out, so no program is needed."""

import json
import unittest

from editing import symbols
from editing.pages import FormulaPage
from editing.shapes import is_gap, is_row, with_rows
from second.tree_print import print_tree
from tests.common import TOP
from tests.editing import KEYS_OF_QUADRATIC, QUADRATIC, SAID, NoStudio, SecondEngine, random_events, told, typed

# Keys, and what then stands there: short words for the elements, a bar at the caret.
ROWS = [
    ([" ab"], "a b |"),
    ([" 12", "ArrowLeft", " 3"], "132 [2]"),
    ([" 1.5"], "1.5 |"),
    ([" 1+2/3"], "1 + mfrac(2, 3 |)"),
    ([" /a", "ArrowDown", " b"], "mfrac(a, b |)"),
    ([" (a+b)/c"], "mfrac(( a + b ), c |)"),
    ([" x(a+b)/c"], "mfrac(x mrow(( a + b )), c |)"),
    ([" f(x)"], "f mrow(( x )) |"),
    ([" f(x)", "Backspace"], "f ( x |"),
    ([" f(x)", "Home", "ArrowRight", "Delete"], "f | x )"),
    ([" f(x)", "ArrowLeft"], "f mrow(( x | ))"),
    ([" f(x)", "ArrowLeft", "Delete"], "f ( x |"),
    ([" f(x)", "ArrowLeft", " )"], "f mrow(( x ) | ))"),
    ([" ((x))"], "mrow(( mrow(( x )) )) |"),
    ([" [0,1)"], "mrow([ 0 , 1 )) |"),
    ([" x)"], "x ) |"),
    ([" x^2_1"], "msup(x, msub(2, 1 |))"),
    ([" x^2 _1"], "msubsup(x, 1 |, 2)"),
    ([" x_1 ^2"], "msubsup(x, 1, 2 |)"),
    ([" x^2 ^3"], "msup(x, 23 |)"),
    ([" (a)^2"], "msup(( a ), 2 |)"),
    ([" ^2"], "msup(2 |, gap)"),
    ([" \\sum _i ^n x"], "munderover(∑, i, n) x |"),
    ([" \\int _0 ^1"], "msubsup(∫, 0, 1 |)"),
    ([" \\sqrt x"], "msqrt(x |)"),
    ([" \\root ", " 3", "ArrowLeft", "ArrowLeft", " x"], "mroot(x |, 3)"),
    ([" ab\\hat c"], "a mover(b, ^) c |"),
    ([" a\\alpha b"], "a α b |"),
    ([" \\frac 1", "Tab", " 2"], "mfrac(1, 2 |)"),
    ([" ab", "Backspace"], "a |"),
    ([" ab", "Home", "Delete"], "| b"),
    ([" a", "Backspace"], "| gap"),
    ([" 12", "Backspace"], "1 |"),
    ([" a/b", "Backspace", "Backspace"], "a |"),
    ([" x a/b", "Home", "Backspace"], "x a | b"),
    ([" a/b ", "Backspace", "Backspace"], "| gap"),
    ([" a/b ", "Backspace", " c"], "c |"),
    ([" abc", "All", "/"], "mfrac(a b c, | gap)"),
    ([" abc", "All", "Delete"], "| gap"),
    ([" ab", "Undo"], "a |"),
    ([" ab", "Undo", "Redo"], "a b |"),
    ([" ab", "Home", " c", "Undo"], "| a b"),
    ([" \\matrix 1", "Tab", " 2", "Tab", " 3", "Tab", " 4"], "mtable(mtr(1, 2), mtr(3, 4 |))"),
    ([" \\matrix 1&2", "Enter", " 3&4"], "mtable(mtr(1, 2), mtr(3, 4 |))"),
    ([" \\matrix 1", "Enter", " 2", "Enter", " 3"], "mtable(mtr(1, gap), mtr(2, gap), mtr(3 |, gap))"),
    ([" \\matrix ", "ArrowDown", " 3", "ArrowUp", "Enter", " 2"], "mtable(mtr(gap, gap), mtr(2 |, gap), mtr(3, gap))"),
    ([" \\matrix 1&2&3"], "mtable(mtr(1, 2, 3 |), mtr(gap, gap, gap))"),
    ([" \\matrix 1&2", "ArrowDown", " \\delrow "], "mtable(mtr(| 1, 2))"),
    ([" \\matrix 1&2\\delcolumn "], "mtable(mtr(| 1), mtr(gap))"),
    ([" \\matrix ", "Backspace"], "| gap"),
    ([" \\matrix 1&2", "ArrowLeft", "ArrowLeft", "ArrowLeft", " \\wider "], "mtable(mtr(columnspan2(| 1 2)), mtr(gap, gap))"),
    ([" \\matrix 1\\wider \\narrower "], "mtable(mtr(1 |, gap), mtr(gap, gap))"),
    ([" \\matrix 1\\taller "], "mtable(mtr(rowspan2(1 |), gap), mtr(gap))"),
    ([" \\matrix 1\\taller \\shorter "], "mtable(mtr(1 |, gap), mtr(gap, gap))"),
    ([" \\matrix 1\\taller ", "Enter"], "mtable(mtr(rowspan2(1), gap), mtr(gap), mtr(| gap, gap))"),
    ([" \\{a"], "{ a |"),
]


class Editing(unittest.TestCase):
    """What keys do to a formula."""

    def test_keys(self):
        for keys, wanted in ROWS:
            with self.subTest(keys):
                page, state = typed(*keys)
                self.assertEqual((told(page), state["told"]), (wanted, ""))

    def test_the_quadratic_formula(self):
        page, state = typed(*QUADRATIC)
        self.assertEqual(state["formula"], SAID)
        self.assertEqual(page.number, KEYS_OF_QUADRATIC)
        self.assertEqual(state["place"], "in the denominator, behind a")

    def test_all_is_undone_and_redone(self):
        page, last = typed(*QUADRATIC)
        steps = last["undo"]
        _, first = typed(*["Undo"] * steps, page=page)
        self.assertEqual((first["formula"], first["undo"], first["redo"]), ("gap", 0, steps))
        _, again = typed(*["Redo"] * steps, page=page)
        for part in ("lines", "boxes", "caret", "tree", "formula"):
            self.assertEqual(again[part], last[part], part)
        _, state = typed("Undo", " q", page=page)
        self.assertEqual(state["redo"], 0)

    def test_refused_edits_say_why_and_change_nothing(self):
        page, _ = typed(*["/"] * 40)
        depth = page.document.tree.root.levels
        self.assertLessEqual(depth, 60)
        before = print_tree(page.document.tree)
        for keys, sentence in ((["/"], "That isn't done: the edited tree would have a level 61. Right would be at most 60 levels"),
                               ([" \\nosuch "], "There is no name \\nosuch."), (["Enter", "&"], "That works in a table alone"),
                               ([" \\wider "], "That works in a table alone"), (["Redo"], "There is nothing to redo.")):
            with self.subTest(sentence):
                _, state = typed(*keys, page=page)
                self.assertIn(sentence, state["told"])
                self.assertEqual(print_tree(page.document.tree), before)
        _, state = typed("Finish", " +x/y", page=page)
        self.assertEqual(state["told"], "")
        self.assertTrue(told(page).endswith(" mfrac(x, y |)"))

    def test_selections_and_deletes_by_shift(self):
        page, _ = typed(" abc")
        for _ in range(2):
            state = page.do(page.number + 1, [{"key": "ArrowLeft", "extend": True}])
        self.assertEqual(state["place"], "selected: b, c")
        self.assertEqual([line[2] for line in state["tree"] if line[3]], ["mi b", "mi c"])
        _, state = typed(" d", page=page)
        self.assertEqual(told(page), "a d |")

    def test_signs_in_the_tree(self):
        page, state = typed(" ∞∂+")
        self.assertEqual([line[2] for line in state["tree"]], ["math", "mi ∞", "mi ∂", "mo +"])
        state = page.do(page.number + 1, [{"paste": "<math><mi>f</mi><mo>&#x2061;</mo><mi>x</mi></math>"}])
        self.assertEqual([line[2] for line in state["tree"]][4:], ["mi f", "mo (of)", "mi x"])
        self.assertTrue(state["formula"].endswith("plus f of x"))

    def test_what_is_pasted(self):
        page, _ = typed(" a")
        for text, wanted in (("<math><mfrac><mi>x</mi><mn>2</mn></mfrac></math>", "a mfrac(x, 2) |"),
                             ('{"name":"math","children":[{"name":"mi","text":"q"}]}', "a mfrac(x, 2) q |"),
                             ("1+y", "a mfrac(x, 2) q 1 + y |")):
            state = page.do(page.number + 1, [{"paste": text}])
            self.assertEqual((told(page), state["told"]), (wanted, ""))
        for text in ("<math><mi>x</math>", "{", '{"name":5}', "[1]" * 1000, "<math>" + "<mrow>" * 70 + "</mrow>" * 70 + "</math>",
                     "<math><mtext>" + "x" * 70_000 + "</mtext></math>"):
            state = page.do(page.number + 1, [{"paste": text}])
            self.assertIn("as it was", state["told"])
            self.assertEqual(told(page), "a mfrac(x, 2) q 1 + y |")

    def test_random_keys_leave_a_formula_that_can_be_edited(self):
        for seed in range(3):
            page, _ = typed(" a")
            for number, event in enumerate(random_events(seed, 400, page)):
                state = page.do(page.number + 1, [event])
                self.assertEqual(state["number"], number + 2)
                self.assertIn(page.document.caret, page.document.map.numbers, (seed, number, event))
                for node in filter(is_row, page.document.map.order):
                    gaps = sum(map(is_gap, node.children))
                    self.assertTrue(gaps == 0 if len(node.children) > 1 else node.children, (seed, number, event))

    def test_layouts_are_counted(self):
        page, state = typed(" ab")
        self.assertEqual((page.layouts(), state["elements"]), ({"number": 2, "layouts": 2}, 3))
        page, _ = typed("ArrowLeft", page=page)
        self.assertEqual(page.layouts(), {"number": 3, "layouts": 0})
        page, _ = typed("Undo", page=page)
        self.assertEqual(page.layouts(), {"number": 4, "layouts": 1})

    def test_formulas_that_are_given_get_rows(self):
        value = {"name": "math", "children": [{"name": "mfrac", "children": [{"name": "mi", "text": "x"}, {"name": "mn", "text": "2"}]},
                                              {"name": "msup", "children": [{"name": "mi", "text": "y"}, {"name": "mn", "text": "3"}]}]}
        page = FormulaPage(NoStudio(), with_rows(value), SecondEngine, None)
        self.assertEqual(told(page), "mfrac(x, 2) msup(y, 3) |")
        self.assertEqual(len(page.document.map.nodes), 1 + 5 + 4)

    def test_gaps_among_others_are_left_out(self):
        gap = {"name": "mspace", "attributes": {"class": "gap"}}
        value = {"name": "math", "children": [gap, {"name": "mi", "text": "x"}, gap, {"name": "mrow", "children": [gap, gap]}]}
        page = FormulaPage(NoStudio(), with_rows(value), SecondEngine, None)
        self.assertEqual([node.name for node in page.document.map.order], ["math", "mi", "mrow", "mspace"])
        page.do(1, [{"paste": json.dumps({"name": "math", "children": [gap]})}])
        self.assertEqual(len(page.document.map.nodes), 4)

    def test_an_element_in_which_no_caret_stands(self):
        text = ("<math><semantics><mi>x</mi><annotation-xml><mrow><mi>y</mi></mrow></annotation-xml><annotation>z</annotation></semantics>"
                "<mphantom><mi>q</mi></mphantom></math>")
        page, _ = typed(" a")
        page.do(2, [{"paste": text}])
        for node in page.document.map.order:
            state = page.do(page.number + 1, [{"choose": node.id}])
            self.assertEqual(state["told"], "")
            self.assertIn(page.document.caret, page.document.map.numbers)
        self.assertIn("isn't there", page.do(page.number + 1, [{"choose": 99}])["told"])

    def test_more_at_once_than_can_be_undone(self):
        many = with_rows({"name": "math", "children": [{"name": "mi", "text": "x"}] * 600})
        page = FormulaPage(NoStudio(), many, SecondEngine, None)
        _, state = typed("All", "Delete", page=page)
        self.assertIn("too much at once", state["told"])
        self.assertEqual(len(page.document.tree.root.children), 600)

    def test_a_paste_that_would_stand_too_deep(self):
        page, _ = typed(" a")
        deep = "<math>" + "<mrow>" * 57 + "<mfrac><mi>x</mi><mn>2</mn></mfrac>" + "</mrow>" * 57 + "</math>"
        state = page.do(2, [{"paste": deep}])
        self.assertIn("levels", state["told"])
        self.assertEqual(told(page), "a |")

    def test_the_document_has_each_structure(self):
        text = (TOP / "docs" / "EDITOR.md").read_text(encoding="utf-8")
        for name in symbols.STRUCTURES:
            self.assertIn(f"`\\{name}`", text)
