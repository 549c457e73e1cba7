"""The editor in a page, in a browser: keys, clicks, what is loaded anew, two pages, and what goes wrong.

The program is the built one, or the one that MATHLAY names; where it or Chromium isn't there, the reason is told."""

import os
import signal
import statistics
import threading
import unittest

from editing.counting import Counter
from editing.engine import Engine
from editing.pages import FormulaPage, Pages
from editing.server import Server
from second.tree_print import print_tree
from tests.browser import CHROMIUM
from tests.driver import DRIVER, NO_DRIVER, Browser
from tests.editing import (EMPTY, KEYS_OF_QUADRATIC, METRICS, PROGRAM, QUADRATIC, SAID, NoStudio, SecondEngine, boxes_of, lacks, metrics,
                           painted, random_events, studio)

NO_BROWSER = lacks("history", "paint") or (None if CHROMIUM and DRIVER else NO_DRIVER)
SHOWN = """return [Array.from(document.querySelectorAll('#page-boxes rect'), box => ['x', 'y', 'width', 'height'].map(
    name => Number(box.getAttribute(name)))), Array.from(document.querySelectorAll('#page-marks > *'), mark => [mark.tagName,
    mark.getAttribute('href'), mark.getAttribute('transform'), ...['x', 'y', 'width', 'height'].map(name => mark.getAttribute(name))])]"""
WORDS = "return document.getElementById('page-words').textContent"
FOCUS = "return document.activeElement.id || document.activeElement.textContent.trim()"
TOLD = "return document.getElementById('page-told').textContent"


def line_of(tag, href, move, x, y, width, height):
    """A mark of the page as the program paints it."""
    if tag == "use":
        return f'<use href="{href}" transform="{move}"/>'
    return f'<rect x="{x}" y="{y}" width="{width}" height="{height}"/>'


@unittest.skipIf(NO_BROWSER, NO_BROWSER)
class InBrowser(unittest.TestCase):
    """The page in a browser, by keys and clicks."""

    @classmethod
    def setUpClass(cls):
        own = studio()
        cls.pages = Pages(own, EMPTY, lambda tree: Engine([PROGRAM], str(METRICS), tree), lambda: Counter(metrics()))
        cls.server = Server(cls.pages)
        cls.thread = threading.Thread(target=cls.server.serve_forever, args=(0.05,), daemon=True)
        cls.thread.start()
        cls.browser = Browser()

    @classmethod
    def tearDownClass(cls):
        cls.browser.close()
        cls.server.shutdown()
        cls.server.server_close()
        cls.pages.close()

    def setUp(self):
        """A page with an empty formula."""
        self.browser.go("about:blank")
        self.browser.go(self.server.address)
        self.browser.wait("return window.mathlay && mathlay.ready")
        self.browser.run("sessionStorage.clear()")
        self.reload()

    def reload(self):
        self.browser.reload()
        self.browser.wait("return window.mathlay && mathlay.ready")
        self.name = self.browser.run("return mathlay.name")

    @property
    def page(self):
        return self.pages.pages[self.name]

    def press(self, *keys, held=(), events=None):
        """Presses keys, and waits until they were done: names of keys, or texts of characters behind a blank. Each makes one event,
        or all make so many."""
        if events is None:
            events = sum(len(key) - 1 if key[0] == " " else 1 for key in keys)
        done = self.browser.run("return mathlay.done")
        self.browser.keys(*[key[1:] if key[0] == " " else key for key in keys], held=held)
        self.settle(done + events)

    def settle(self, number):
        self.browser.wait("return mathlay.done >= arguments[0] && !mathlay.waiting.length && !mathlay.busy", number)
        self.assertEqual(self.browser.run("return mathlay.done"), number)

    def assert_fresh(self):
        """The page shows what the program gives for its tree, laid out afresh."""
        tree = print_tree(self.page.document.tree)
        boxes, marks = self.browser.run(SHOWN)
        self.assertEqual(boxes, boxes_of(tree))
        self.assertEqual([line_of(*mark) for mark in marks], painted(tree))

    def box(self, text):
        """Where the box of the element with a text is seen: left, top, width and height in px."""
        node = next(node for node in self.page.document.map.order if node.text == text)
        return self.browser.run("const box = document.querySelector(`#page-boxes [data-id='${arguments[0]}']`).getBoundingClientRect();"
                                "return [box.left, box.top, box.width, box.height]", node.id)

    def test_cells_that_span(self):
        """A table with a cell over two columns, and one with a cell over two rows."""
        for keys in ([" \\matrix a\\wider "], ["Enter"], [" 2&3"], ["ArrowRight"], [" \\column "], [" \\matrix 1\\taller "], [" &4"]):
            self.press(*keys)
            self.assert_fresh()
        tree = print_tree(self.page.document.tree)
        self.assertIn('"columnspan":"2"', tree)
        self.assertIn('"rowspan":"2"', tree)

    def test_the_quadratic_formula(self):
        for key in QUADRATIC:
            for one in key[1:] if key[0] == " " else [key]:
                self.press(one if len(one) > 1 else f" {one}")
                self.assert_fresh()
        self.assertEqual(self.browser.run(WORDS), SAID)
        left, top, width, height = self.box("4")
        self.browser.click(left + width * 0.2, top + height / 2)
        self.settle(KEYS_OF_QUADRATIC + 1)
        self.press("Delete")
        self.assert_fresh()
        self.press(" 5")
        self.assert_fresh()
        self.assertEqual(self.browser.run(WORDS), SAID.replace("4", "5"))
        steps = len(self.page.document.past)
        for _ in range(steps):
            self.press("z", held=["Control"])
            self.assert_fresh()
        self.assertEqual(self.browser.run(WORDS), "gap")
        for _ in range(steps):
            self.press("y", held=["Control"])
            self.assert_fresh()
        self.assertEqual(self.browser.run(WORDS), SAID.replace("4", "5"))

    def test_a_thousand_keys_by_chance(self):
        events = [event for event in random_events(2, 1100) if event["key"] not in ("Tab", "Start", "Finish", "All")][:1000]
        named = {"Undo": ("z", ["Control"]), "Redo": ("y", ["Control"])}
        sent = 0
        while sent < len(events):
            burst = events[sent:sent + 1 + sent % 7]
            for event in burst:
                key, held = named.get(event["key"], (event["key"], ["Shift"] if event.get("extend") else []))
                self.browser.keys(key, held=held)
            sent += len(burst)
        self.settle(len(events))
        self.assert_fresh()
        other = FormulaPage(NoStudio(), EMPTY, SecondEngine, None)
        state = other.do(1, events)
        self.assertEqual(self.browser.run(WORDS), state["formula"])
        times, engine = self.browser.run("return [mathlay.times, mathlay.engine]")
        self.assertEqual(len(times), len(events))
        edits = [each for each in engine if each]
        print(f"editor in a page: 1,000 keys: {statistics.median(times):.1f} ms median, {max(times):.0f} ms worst; "
              f"{len(edits)} with an edit: engine {statistics.median(edits):.0f} us median, {max(edits)} us worst")

    def test_a_page_that_is_loaded_anew_has_its_formula(self):
        self.press(" x^2")
        self.reload()
        self.assertEqual(self.browser.run(WORDS), "x to the 2")
        self.assert_fresh()
        self.press(" 3")
        self.press("z", held=["Control"])
        self.assertEqual(self.browser.run(WORDS), "x to the 2")

    def test_two_pages_do_not_disturb_each_other(self):
        self.press(" ab")
        (first,), name = self.browser.windows(), self.name
        self.browser.run("window.open(location.href)")
        self.browser.use(next(window for window in self.browser.windows() if window != first))
        self.browser.wait("return window.mathlay && mathlay.ready")
        self.name = self.browser.run("return mathlay.name")
        self.assertNotEqual(self.name, name)
        self.assertEqual(self.browser.run(WORDS), "a b")
        self.browser.run("document.getElementById('page-keys').focus()")
        self.press(" c")
        self.assertEqual(self.browser.run(WORDS), "a b c")
        self.browser.ask("DELETE", self.browser.path + "/window")
        self.browser.use(first)
        self.name = name
        self.press(" d")
        self.assertEqual(self.browser.run(WORDS), "a b d")

    def test_what_is_refused_is_told(self):
        self.browser.keys("/" * 40)
        self.settle(40)
        self.assertIn("level 61", self.browser.run(TOLD))
        self.assert_fresh()
        self.press(" \\nosuch ", events=8)
        self.assertIn("There is no name", self.browser.run(TOLD))

    def test_an_engine_that_is_killed(self):
        self.press(" ab")
        os.kill(self.page.document.engine.pid, signal.SIGKILL)
        self.press(" c")
        self.assertIn("nothing is lost", self.browser.run(TOLD))
        self.assertEqual(self.browser.run(WORDS), "a b c")
        self.assert_fresh()

    def test_a_server_that_does_not_answer_for_a_while(self):
        self.press(" a")
        network = {"offline": True, "latency": 0, "download_throughput": 0, "upload_throughput": 0}
        self.browser.call("/chromium/network_conditions", {"network_conditions": network})
        self.browser.keys("bc")
        self.browser.wait("return mathlay.told.some(text => text.includes('kept here'))")
        self.browser.ask("DELETE", self.browser.path + "/chromium/network_conditions")
        self.settle(3)
        self.assertEqual(self.browser.run(WORDS), "a b c")

    def test_another_origin(self):
        self.browser.go("data:text/html,<title>other</title>")
        self.browser.run("window.found = null; fetch(arguments[0] + 'open', {method: 'POST', body: '{\"page\":\"evil\"}'}).then("
                         "() => { window.found = 'answered' }, () => { window.found = 'refused' })", self.server.address)
        self.assertEqual(self.browser.wait("return window.found"), "refused")
        self.assertNotIn("evil", self.pages.pages)

    def test_escape_and_tab_leave_a_formula_with_gaps(self):
        self.press(" /")
        self.press("Tab")
        self.assertEqual(self.browser.run(FOCUS), "page-keys")
        self.press("Escape")
        self.browser.keys("Tab")
        self.assertNotEqual(self.browser.run(FOCUS), "page-keys")
        self.assertEqual(self.browser.run("return mathlay.done"), 3)

    def test_what_is_typed_in_the_tree_goes_to_the_formula(self):
        self.press(" a")
        self.browser.keys("Tab")
        self.assertEqual(self.browser.run(FOCUS), "math")
        self.press(" b+")
        self.assertEqual(self.browser.run(FOCUS), "page-keys")
        self.assertEqual(self.browser.run(WORDS), "a b plus")

    def test_from_the_keyboard_alone(self):
        self.browser.keys("Tab")
        self.assertEqual(self.browser.run(FOCUS), "math")
        self.browser.keys("Tab", held=["Shift"])
        self.press(" a/b")
        self.assertEqual(self.browser.run(FOCUS), "page-keys")
        self.press("Escape", events=1)
        self.browser.keys("Tab")
        self.assertEqual(self.browser.run(FOCUS), "mrow")
        self.browser.keys("ArrowDown", "Enter")
        self.settle(5)
        self.assertEqual(self.browser.run("return document.getElementById('page-place').textContent"), "selected: b")
        self.browser.keys("Tab", held=["Shift"])
        self.assertEqual(self.browser.run(FOCUS), "page-keys")
        self.press(" c")
        self.assertEqual(self.browser.run(WORDS), "fraction a over c end of fraction")
        self.browser.keys("Tab", held=["Shift"])
        self.assertEqual(self.browser.run(FOCUS), "page-svg")
        self.browser.keys("Enter")
        svg = self.browser.wait("return mathlay.copied")
        self.assertIn("<defs>", svg)

    def test_what_is_cut_and_put_in_again(self):
        self.press(" a/b")
        self.press("ArrowLeft", held=["Shift"])
        self.browser.keys("x", held=["Control"])
        self.settle(5)
        self.assertEqual(self.browser.run(WORDS), "fraction a over gap end of fraction")
        self.press("Home")
        self.browser.keys("v", held=["Control"])
        self.settle(7)
        self.assertEqual(self.browser.run(WORDS), "fraction a over b end of fraction")
        self.assert_fresh()

    def test_the_caret_stays_in_sight(self):
        seen = """const caret = document.getElementById('page-caret').getBoundingClientRect(),
            frame = document.getElementById('page-paper').getBoundingClientRect();
            return frame.left <= caret.left && caret.right <= frame.right && frame.top <= caret.top && caret.bottom <= frame.bottom"""
        self.press(" " + "x+y=" * 12)
        self.assertTrue(self.browser.run(seen))
        self.press("Home")
        self.assertTrue(self.browser.run(seen))
        self.press(*"/" * 8)
        self.assertTrue(self.browser.run(seen))
        self.browser.call("/window/rect", {"width": 500, "height": 500})
        self.press(" a")
        self.assertTrue(self.browser.run(seen))
        self.assertEqual(self.browser.run("return scrollY"), 0)
        self.browser.call("/window/rect", {"width": 1100, "height": 760})

    def test_names_and_roles(self):
        self.press(" a/b")
        for selector, role, name in (("#page-keys", "textbox", "Formula"), ("#page-formula", "image", "fraction a over b end of fraction"),
                                     ("#page-tree", "tree", "Tree"), ("#page-tree li", "treeitem", "math"),
                                     ("#page-undo", "button", "Undo"), ("#page-svg", "button", "Copy SVG"), ("#page-told", "alert", ""), ("#page-place", "status", ""),
                                     ("#page-commands", "toolbar", "Commands"), ("nav", "navigation", "Tree of the formula")):
            with self.subTest(selector):
                element = next(iter(self.browser.call("/element", {"using": "css selector", "value": selector}).values()))
                found = [self.browser.ask("GET", f"{self.browser.path}/element/{element}/computed{what}") for what in ("role", "label")]
                self.assertIn(found[0], (role, {"image": "img"}.get(role, role)))
                self.assertEqual(found[1].strip(), name)
