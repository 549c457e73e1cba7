"""Sentences for what the program writes where it refuses."""

import re
import shlex
import sys

import explain
from companion import formats
from companion.jsons import places_of
from tests.common import TOP, InFolder, run

METRICS = "mathlay-metrics 1\nupem 1024\nline 900 300\nxheight 512\nconst AxisHeight\n"
TREE = '{"name":"math",\n "children":[{"children":[{"name":"mn"}],"name":"mrow"},\n {"name":"mo","text":"-"}, 7]}'


class Sentences(InFolder):
    def told(self, *words):
        status, written, errors = run(explain, *words)
        self.assertEqual((status, errors), (0, ""))
        return written.decode()

    def test_a_fault_of_metrics(self):
        path = self.file("m", METRICS)
        self.assertEqual(self.told("metrics", 5, 4, path), (
            f"{path}, line 5: too few or too many fields: `const AxisHeight`; right would be as many fields as its first word has: const "
            "has the name of a constant, and its value: -32768 to 65535, for the two scale-down percents 0 to 200\n"))
        self.assertEqual(self.told("metrics", 4, 13), (
            "the metrics file, line 4: the file ended without xheight; right would be a line xheight\n"))

    def test_a_fault_of_a_tree_is_found_in_its_file(self):
        path = self.file("t", TREE)
        for element, place in ((1, " <math> at line 1, column 1"), (2, " <mrow> at line 2, column 14"), (3, " <mn> at line 2, column 27"),
                               (4, " <mo> at line 3, column 2"), (5, " at line 3, column 28"), (6, "")):
            self.assertIn(f"{path}: element {element}{place}: ", self.told("tree", element, 1, path))
        self.assertIsNone(places_of("{", 1))

    def test_a_tree_that_is_no_json(self):
        for text, told in (("{\n '", ":2:2: isn't JSON"), (b"\xff", "isn't UTF-8"), ("[" * 100_000, "deep in one another")):
            self.assertIn(told, self.told("tree", "json", self.file("t", text)))

    def test_every_status_reply_and_fault_has_a_sentence(self):
        for row in formats.table("How the program ends", "status"):
            self.assertIn(row["what it says"], self.told("status", row["status"]))
        for row in formats.table("The script, and the replies to it", "reply"):
            if row["reply"].startswith("refused"):
                self.assertIn(f"right would be {row['what would be right']}", self.told(*row["reply"].split()))
        for heading, word, kinds in (("The metrics file", "metrics", range(1, 16)), ("The tree file", "tree", [*range(1, 10), 11])):
            rows = formats.table(f"{heading}: Its faults", "kind")
            self.assertEqual(sorted(int(row["kind"]) for row in rows), list(kinds))
            for row in rows:
                self.assertIn(row["fault"], self.told(word, 1, row["kind"]))

    def test_the_statuses_are_on_the_first_screen(self):
        first = (TOP / "docs" / "FORMATS.md").read_text().split("\n")[:40]
        self.assertEqual(sum(bool(re.match(r"\| \d+ \|", line)) for line in first), 11)

    def test_what_is_no_refusal(self):
        for words in (("hello",), ("metrics", 1, 16), ("tree", 1, 12), ("refused", "everything")):
            status, written, errors = run(explain, *words)
            self.assertEqual((status, written, errors.count("\n")), (1, b"", 1))

    def test_ids_and_pictures_that_are_refused(self):
        self.assertIn("the tree: no element in flow has the id 9; right would be", self.told("node", 9))
        self.assertIn("too many pieces; right would be", self.told("paint", "many"))

    def test_nothing_to_undo(self):
        self.assertIn("there is nothing to undo, or to redo; right would be an edit", self.told("refused", "nothing"))

    def test_a_file_that_is_not_there_is_named(self):
        path = self.file("m", METRICS)
        self.assertEqual(self.told("status", 5, path, "nowhere"), "nowhere: the tree file isn't there\n")
        self.assertIn("is a folder, and the metrics file has to be a file", self.told("status", 5, self.folder))


class Runs(InFolder):
    """A run that is explained, of a program that writes what it is given to."""

    def program(self, text, status):
        script = self.file("program.py", f"import sys\nsys.stdout.write({text!r})\nsys.exit({status})\n")
        return f"{shlex.quote(sys.executable)} {shlex.quote(script)}"

    def test_a_refusal(self):
        metrics = self.file("m", METRICS)
        outcome = run(explain, "layout", metrics, "t", "--program", self.program("metrics 5 4\n", 3))
        self.assertEqual(outcome[:2], (3, b"metrics 5 4\n"))
        self.assertIn(f"{metrics}, line 5: too few or too many fields", outcome[2])
        outcome = run(explain, "check", metrics, "nowhere", "--program", self.program("", 5))
        self.assertEqual(outcome, (5, b"", "explain: nowhere: the tree file isn't there\n"))

    def test_edits_of_a_seed(self):
        metrics = self.file("m", METRICS)
        for status, text, told in ((3, "metrics 5 4\n", f"{metrics}, line 5: too few or too many fields"),
                                   (2, "usage\n", f"gen {metrics} 1 0: the words are none of the eight lists"),
                                   (8, "range\n", f"gen {metrics} 1 0: a number of the layout can't be stored")):
            outcome = run(explain, "gen", metrics, 1, 0, "--program", self.program(text, status))
            self.assertEqual(outcome[:2], (status, text.encode()))
            self.assertIn(told, outcome[2])
        self.assertEqual(run(explain, "gen", "nowhere", 1, 1, "--program", self.program("", 5))[2],
                         "explain: nowhere: the metrics file isn't there\n")

    def test_lines_of_a_script_that_were_refused(self):
        script = self.file("s", '{"op":"show"}\n \n{"op":"remove","node":1}\n{"op":"show"}\n{"op":"move"}\n')
        text = "shown\nbox 1 math 0 0 0 0 0 0 0\nrefused root\nshown\nbox 1 math 0 0 0 0 0 0 0\nrefused line\n"
        status, written, errors = run(explain, "edit", "m", "t", script, "--program", self.program(text, 0))
        self.assertEqual((status, written.decode()), (0, text))
        first, second = errors.splitlines()
        self.assertIn(f"{script}, line 3: refused root: remove or replace of the topmost element; right would be", first)
        self.assertIn(f"{script}, line 5: refused line: to a line that is no command", second)

    def test_wrong_words(self):
        for words in ((), ("layout", "m"), ("edit", "m", "t"), ("gen", "m", "1")):
            status, _, errors = run(explain, *words)
            self.assertEqual((status, errors.count("\n")), (2, 1))
        self.assertEqual(run(explain, "--help")[0], 0)
