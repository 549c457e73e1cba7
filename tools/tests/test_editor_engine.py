"""The editor in a page over the program: what it shows is what a fresh layout gives, and an engine that ends is replaced.

The program is the built one, or the one that MATHLAY names; where it isn't there, or lacks a command, the reason is told."""

import os
import re
import signal
import statistics
import unittest

from companion import mathml3
from companion.mathml import read_formulas
from companion.trees import made_tree
from editing.counting import Counter
from editing.document import Refusal
from editing.engine import Broken, Engine
from editing.pages import FormulaPage
from editing.places import Span
from editing.shapes import is_row, with_rows
from second.tree_print import print_tree
from tests.common import TOP
from tests.editing import EMPTY, METRICS, PROGRAM, QUADRATIC, SAID, boxes_of, lacks, metrics, painted, random_events, studio, typed, written

LACK = lacks("history", "paint", "hit", "select")


@unittest.skipIf(LACK, LACK)
class WithProgram(unittest.TestCase):
    """The program under the editor: each page is what a fresh layout gives, and an engine that ends is replaced."""

    def page(self, value=EMPTY):
        page = FormulaPage(studio(), value, lambda tree: Engine([PROGRAM], str(METRICS), tree), Counter(metrics()))
        self.addCleanup(page.document.sleep)
        return page

    def assert_fresh(self, page, state):
        """The page shows what a fresh layout and its painting give."""
        tree = print_tree(page.document.tree)
        self.assertEqual([box[1:] for box in state["boxes"]], boxes_of(tree))
        self.assertEqual(re.findall("<[^>]*>", state["lines"]), painted(tree))

    def test_the_quadratic_formula_step_by_step(self):
        page = self.page()
        keys = [one for key in QUADRATIC for one in (key[1:] if key.startswith(" ") else [key])]
        for key in [*keys, *["Undo"] * 20, *["Redo"] * 20]:
            self.assert_fresh(page, page.do(page.number + 1, [{"key": key}]))
        self.assertEqual(page.state("")["formula"], SAID)

    def test_a_thousand_keys_by_chance(self):
        page, engine = self.page(), []
        for number, event in enumerate(random_events(1, 1000, page), 1):
            state = page.do(number, [event])
            self.assertEqual(state["number"], number)
            if state["microseconds"]:
                engine.append(state["microseconds"])
            if number % 100 == 0:
                self.assert_fresh(page, state)
        self.assert_fresh(page, state)
        print(f"editor: 1,000 keys, {len(engine)} with an edit: engine {statistics.median(engine):.0f} us median, {max(engine)} us worst")

    def test_the_samples_and_keys_by_chance_in_each(self):
        for path in sorted((TOP / "samples").glob("*.mml")):
            with self.subTest(path.name):
                root = made_tree(mathml3.modern(read_formulas(path.name, path.read_bytes())[0], mathml3.Told())).root
                page = self.page(with_rows(root))
                self.assert_fresh(page, page.open())
                for event in random_events(3, 60, page):
                    state = page.do(page.number + 1, [event])
                self.assert_fresh(page, state)
                _, state = typed(*["Undo"] * state["undo"], page=page)
                self.assert_fresh(page, page.open())
                page.document.sleep()

    def test_points_and_selections_are_the_programs(self):
        page, _ = typed(*QUADRATIC, page=self.page())
        tree, places = print_tree(page.document.tree), page.document.map
        ids = {node.id: number for number, node in enumerate(places.order, 1)}
        for x in range(-1_000, 170_000, 16_411):
            for y in range(-30_000, 16_000, 5_077):
                hit = page.document.page.hit(x, y)
                self.assertEqual(written("hit", tree, x, y), f"hit {ids[hit] if hit else 'none'}\n")
        rows = [node for node in places.order if is_row(node)]
        for row in rows:
            for end in range(1, len(row.children) + 1):
                areas = page.document.page.areas(places, Span(row.id, 0, end))
                ends = [ids[row.children[place].id] for place in (0, end - 1)]
                self.assertEqual(written("select", tree, *ends), "".join(f"area {' '.join(map(str, area))}\n" for area in areas))

    def test_an_engine_that_is_killed(self):
        page, before = typed(*QUADRATIC, page=self.page())
        for number in (signal.SIGKILL, signal.SIGTERM):
            os.kill(page.document.engine.pid, number)
            page.document.engine.child.wait()
            _, state = typed(" +", page=page)
            self.assertIn("started anew, and nothing is lost", state["told"])
            self.assert_fresh(page, state)
            _, state = typed("Undo", page=page)
            self.assertEqual((state["formula"], state["told"]), (SAID, ""))
            self.assert_fresh(page, state)
        steps = state["undo"]
        _, state = typed(*["Undo"] * steps, page=page)
        self.assertEqual((state["formula"], state["told"]), ("gap", ""))
        _, state = typed(*["Redo"] * steps, page=page)
        self.assertEqual((state["formula"], state["lines"]), (SAID, before["lines"]))

    def test_a_pipe_that_is_closed(self):
        page, _ = typed(" ab", page=self.page())
        page.document.engine.child.stdin.close()
        _, state = typed(" c", page=page)
        self.assertIn("nothing is lost", state["told"])
        self.assertEqual(state["formula"], "a b c")
        page.document.engine.child.stdout.close()
        os.kill(page.document.engine.pid, signal.SIGKILL)
        page.document.engine.child.stdout = open(os.devnull, "rb")
        _, state = typed(" d", page=page)
        self.assertEqual(state["formula"], "a b c d")
        self.assert_fresh(page, state)

    def test_a_line_of_2_mb(self):
        page, _ = typed(" ab", page=self.page())
        caret = page.document.caret
        long = {"op": "insert", "node": 1, "index": 0, "element": {"name": "mrow", "children": [
            {"name": "mtext", "text": "x" * 65_000} for _ in range(32)]}}
        with self.assertRaisesRegex(Refusal, "too long"):
            page.document.change([long], caret)
        with self.assertRaisesRegex(Broken, "the script is too long"):
            page.document.engine.ask([long])
        _, state = typed(" c", page=page)
        self.assertIn("nothing is lost", state["told"])
        self.assertEqual(state["formula"], "a b c")
        self.assert_fresh(page, state)

    def test_an_engine_that_ends_each_time(self):
        page, _ = typed(" ab", page=self.page())
        page.document.sleep()
        start, page.document.start = page.document.start, lambda tree: Engine(["false"], str(METRICS), tree)
        _, state = typed(" c", page=page)
        self.assertIn("The formula is kept", state["told"])
        page.document.start = start
        _, state = typed(" c", page=page)
        self.assertEqual((state["formula"], state["told"]), ("a b c", ""))
        self.assert_fresh(page, state)

    def test_a_script_that_comes_to_its_end(self):
        page, _ = typed(" ab", page=self.page())
        page.document.engine.room = 0
        first = page.document.engine
        _, state = typed(" c", "Undo", "Undo", page=page)
        self.assertIsNot(page.document.engine, first)
        self.assertEqual((state["formula"], state["told"]), ("a", ""))
        self.assert_fresh(page, state)

    def test_an_edit_out_of_range(self):
        page, _ = typed(" a", page=self.page())
        wide = {"op": "attr", "node": 1, "name": "mathsize", "value": "2000000px"}
        with self.assertRaisesRegex(Refusal, "out of range"):
            page.document.change([wide], page.document.caret)
        with self.assertRaisesRegex(Refusal, "out of range"):
            page.document.change([{"op": "attr", "node": 1, "name": "class", "value": "x"}, wide], page.document.caret)
        _, state = typed(" b", page=page)
        self.assertEqual(state["formula"], "a b")
        self.assert_fresh(page, state)

    def test_the_copied_svg_is_the_programs(self):
        page, _ = typed(*QUADRATIC, page=self.page())
        svg = page.copy("svg")
        tree = page.copy("tree")
        for line in written("paint", tree).splitlines():
            self.assertIn(line, svg.splitlines())
        for name in re.findall('href="#([^"]*)"', svg):
            self.assertEqual(svg.count(f'<path id="{name}" '), 1)
        self.assertIn("<mfrac>", page.copy("mathml"))
