"""The comparison of a program with the second engine: what it tells, that it makes cases small, and some of the built program."""

import os
import unittest

import fuzz
from fuzz_inputs import KINDS, WEIGHTS, Case

from tests.common import TOP, InFolder, run

PROGRAM = TOP / "crates" / "mathlay" / "out" / "mathlay"
METRICS = b"mathlay-metrics 1\nupem 1000\nline 1 1\nxheight 1\nglyph missing 9 9 9\n"
CASE = Case(["layout", "m", "t"], {"m": METRICS, "t": b'{"name":"math","children":[{"name":"mn","text":"1"}]}'})


class Comparison(InFolder):
    def stand_in(self, written, status=0):
        """A program that always writes this, and ends with that status."""
        path = self.file("program", f"#!/bin/sh\ncat {self.file('written', written)}\nexit {status}\n")
        os.chmod(path, 0o755)
        return path

    def test_a_case_is_decided_by_seed_kind_and_number(self):
        for kind in KINDS:
            self.assertEqual(fuzz.case_of(3, kind, 4), fuzz.case_of(3, kind, 4))
        self.assertNotEqual(fuzz.case_of(3, "formulas", 4), fuzz.case_of(3, "formulas", 5))

    def test_the_first_line_that_differs_is_told(self):
        _, written = fuzz.run_engine(CASE)
        self.assertIsNone(fuzz.difference(self.stand_in(written), CASE))
        told = fuzz.difference(self.stand_in(written.replace(b"mn", b"mm")), CASE)
        self.assertRegex(told, "^line 2: 'box 2 mm .*, and the engine's 'box 2 mn ")
        self.assertIn("status 8, and the engine's 0", fuzz.difference(self.stand_in(written, 8), CASE))

    def test_cases_are_made_small(self):
        tree = b'{"name":"math","children":[{"name":"mn","text":"1"},{"name":"mfrac","attributes":{"dir":"ltr"},"children":[]}]}'
        case = Case(["edit", "m", "t", "s"], {"m": b"a\nb\nc\n", "t": tree, "s": b"1\n2\n3\n4"})
        small = fuzz.smaller_case(case, lambda other: b"mn" in other.files["t"] and b"3" in other.files["s"])
        self.assertEqual(small.files, {"m": b"", "t": b'{"name": "math", "children": [{"name": "mn", "text": "1"}]}', "s": b"3"})

    def test_harm_is_told(self):
        self.assertIsNone(fuzz.harm_of(self.stand_in(b"", 4), CASE))
        self.assertEqual(fuzz.harm_of(self.stand_in(b"", 1), CASE), "ended with status 1")

    def test_a_case_by_its_number(self):
        words = ["--seed", 3, "--first", 4, "--count", 1, "--kinds", "words", "--jobs", 1]
        status, written, _ = run(fuzz, self.stand_in(b"nothing of the program's"), *words)
        self.assertEqual(status, 1)
        self.assertRegex(written, rb"\Awords 4 \(seed 3\): .*\n0 passed, 1 failed\n\Z")

    def test_wrong_words(self):
        status, _, errors = run(fuzz, self.file("none", ""))
        self.assertEqual(status, 2)
        self.assertIn("is no program", errors)


@unittest.skipUnless(PROGRAM.is_file(), "rt ci hasn't built the program mathlay")
class BuiltProgram(unittest.TestCase):
    def test_a_few_cases_of_each_kind(self):
        for kind in KINDS:
            for number in range(4 if WEIGHTS[kind] else 1):
                with self.subTest(kind=kind, number=number):
                    self.assertIsNone(fuzz.difference(str(PROGRAM), fuzz.case_of(1, kind, number)))

    def test_changed_bytes_do_no_harm(self):
        for number in range(40):
            with self.subTest(number=number):
                self.assertIsNone(fuzz.harm_of(str(PROGRAM), fuzz.case_of(1, "harm", number)))


if __name__ == "__main__":
    unittest.main()
