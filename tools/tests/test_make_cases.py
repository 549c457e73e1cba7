"""What make_cases.py tells and writes, over a program of a few cases."""

from unittest import mock

import make_cases
from cases.changes import changes
from tests.common import InFolder, run

STDIN = "# halves\nhalf 3\nhalf x\nhalf 4\n"
STDOUT = "half 3\n= 1\nline 3: no JSON value follows its first word\nhalf 4\n= 2\n"


def told(stored, expected):
    """What is told of two outputs, a text each."""
    return list(changes(stored.split("\n"), expected.split("\n")))


class Changes(InFolder):
    def test_the_line_of_a_case_stands_above_what_changes_in_it(self):
        stored = "run {}\nstatus 0\n|box 1\n|box 2\n|box 3\n+end\nhalf 3\n= 1\nrun []\nsum 1 2 AB\n"
        expected = "run {}\nstatus 0\n|box 1\n|box 9\n|box 3\n+end\nhalf 3\n= 1\nrun []\nsum 1 2 CD\n"
        self.assertEqual(told(stored, expected), [" run {}", "-|box 2", "+|box 9", " run []", "-sum 1 2 AB", "+sum 1 2 CD"])
        self.assertEqual(told(stored, stored), [])

    def test_lines_that_neighbours_share_are_told_of_neither(self):
        kept = "status 0\n|edits 9\n|refused 4\n"
        before, after = kept + "|width 5\n", kept + "|width 6\n"
        outputs = [f"gen 1\n{first}gen 2\n{second}gen 3\n{third}" for first, second, third in
                   ((before, after, before), (after, before, before))]
        changed = [" gen 1", "-|width 5", "+|width 6", " gen 2", "-|width 6", "+|width 5"]
        self.assertEqual(told(*outputs), changed)

    def test_lines_that_come_or_go_within_a_case(self):
        long, short = "run {}\nstatus 0\n|ok\n|refused\n|end\n", "run {}\nstatus 8\n|ok\n|end\n"
        self.assertEqual(told(long, short), [" run {}", "-status 0", "+status 8", "-|refused"])

    def test_one_of_very_many_lines_that_are_the_same(self):
        lines = ["gen 1", *["|ok"] * 65536]
        changed = [*lines]
        changed[40000] = "|refused"
        self.assertEqual(list(changes(lines, changed)), [" gen 1", "-|ok", "+|refused"])

    def test_all_of_a_case_that_comes_or_goes_is_told(self):
        one, two, three = "half 1\n= 0\n", "half 2\n= 1\n", "line 9: no file has this name\n"
        self.assertEqual(told(one + three, one + two + three), ["+half 2", "+= 1"])
        self.assertEqual(told(one + two + three, two), ["-half 1", "-= 0", f"-{three[:-1]}"])

    def test_cases_with_the_same_line_are_held_apart(self):
        self.assertEqual(told("half 1\n= 0\nhalf 1\n= 0\n", "half 1\n= 0\nhalf 1\n= 1\n"), [" half 1", "-= 0", "+= 1"])


class Tool(InFolder):
    def setUp(self):
        super().setUp()
        # (these folders have no file of the system that the program tries before its cases)
        alone = make_cases.kinds.Kinds(make_cases.kinds.PROGRAMS["cases"].one_answer)
        for patch in (
            mock.patch.object(make_cases, "CRATES", self.folder),
            mock.patch.dict(make_cases.kinds.PROGRAMS, cases=alone),
        ):
            patch.start()
            self.addCleanup(patch.stop)
        (self.folder / "cases").mkdir()
        self.file("cases/stdin", STDIN)

    def told(self, *words):
        """The status and the lines of a run, which tells nothing of a fault."""
        status, written, errors = run(make_cases, *words, "cases")
        self.assertEqual(errors, "")
        return status, written.decode().split("\n")[:-1]

    def test_what_changes_is_told_and_nothing_is_written(self):
        stored = STDOUT.replace("= 2", "= 3")
        self.file("cases/stdout", stored)
        front = ["--- cases/stdout, stored", "+++ cases/stdout, expected"]
        self.assertEqual(self.told("--diff"), (1, [*front, " half 4", "-= 3", "+= 2"]))
        self.assertEqual(self.told("--check"), (1, ["cases/stdout, line 5: has '= 3', expected '= 2'"]))
        self.assertEqual((self.folder / "cases/stdout").read_text(), stored)

    def test_what_is_written_changes_no_more(self):
        self.assertEqual(self.told(), (0, []))
        self.assertEqual((self.folder / "cases/stdout").read_text(), STDOUT)
        for word in ("--diff", "--check"):
            self.assertEqual(self.told(word), (0, []))

    def test_long_lines_are_cut(self):
        self.file("cases/stdin", "half 3" + " " * 300 + "\n")
        lines = self.told("--diff")[1]
        self.assertEqual(lines[2:], ["+half 3" + " " * (make_cases.WIDTH - 7) + "...", "+= 1"])

    def test_words(self):
        status, written, errors = run(make_cases, "--diff", "nobody")
        self.assertEqual((status, written), (2, b""))
        self.assertIn("no program nobody", errors)
