"""The quick run, over a small repository and a tool in the place of `rt`."""

import io
import stat
from contextlib import redirect_stdout
from unittest import mock

import quick
from tests.common import InFolder

# Writes what it was given and the file `told` of its data, and ends with the status that `data/ending` has.
TOOL = """#!/bin/sh
cat
for word; do
    case $word in
        told=*) cat "${word#*=}" ;;
        ending=*) echo "run=ended status=$(cat "${word#*=}") runners=1 proved=no" >&2 ;;
        fault=*) echo "src/main.rt: refused" >&2 ;;
    esac
done
"""


class Programs(InFolder):
    def setUp(self):
        super().setUp()
        for name, place in (("TOP", self.folder), ("CRATES", self.folder / "crates")):
            patch = mock.patch.object(quick, name, place)
            patch.start()
            self.addCleanup(patch.stop)
        self.tool = self.file("rt", TOOL)
        (self.folder / "rt").chmod(stat.S_IRWXU)
        self.listed("# all\nlow: itoa\nmid: low\none status=3: mid\ntwo : low\n")
        self.crate("low", "src/lib.rt")
        self.crate("mid", "src/lib.rt")
        self.crate("one", "src/main.rt", stdin="a\nb\n", stdout="a\nb\nc\n", **{"data/told": "c\n", "data/ending": "0"})
        self.crate("two", "src/main.rt", stdin="a\n", stdout="a\n", status="1\n", **{"data/ending": "1"})

    def listed(self, text):
        self.file("crates.txt", text)

    def crate(self, name, root, **files):
        """Makes a crate with a root file and files beside its src/."""
        for file, text in {root: "", **files}.items():
            path = self.folder / "crates" / name / file
            path.parent.mkdir(parents=True, exist_ok=True)
            path.write_text(text)

    def told(self, *names):
        """The lines that a run of these programs tells, but for that of its time, and its status."""
        out = io.StringIO()
        with redirect_stdout(out):
            status = quick.run([quick.Program(name, self.tool) for name in names], quick.lost_crates(), 2)
        return [line for line in out.getvalue().split("\n")[:-1] if not line.startswith("in ")], status

    def assert_failed(self, *lines):
        told, status = self.told("one")
        self.assertEqual((told, status), ([*lines, "0 passed, 1 failed"], 1))

    def test_programs_are_found_the_longest_first(self):
        self.assertEqual(quick.program_names(), ["one", "two"])

    def test_all_is_as_stored(self):
        lines, status = self.told("one", "two")
        self.assertEqual((sorted(line.partition(",")[0] for line in lines), status),
                         (["2 passed", "one: 3 lines as stored", "two: 1 line as stored"], 0))

    def test_a_changed_byte(self):
        (self.folder / "crates/one/stdout").write_text("a\nB\nc\n")
        self.assert_failed("one: differs:", "    line 2 of its stdout: 'B'", "    line 2 that it wrote: 'b'")

    def test_a_case_that_was_dropped(self):
        (self.folder / "crates/one/stdin").write_text("a\n")
        self.assert_failed("one: differs:", "    line 2 of its stdout: 'b'", "    line 2 that it wrote: 'c'")

    def test_an_end_that_was_dropped(self):
        (self.folder / "crates/one/stdout").write_text("a\nb\nc")
        self.assert_failed("one: differs:", "    line 4 of its stdout: no such line", "    line 4 that it wrote: ''")

    def test_another_status(self):
        (self.folder / "crates/one/status").write_text("1\n")
        self.assert_failed("one: differs:", "    ended with status 0, and has to with 1")

    def test_no_answer(self):
        (self.folder / "crates/one/data/ending").rename(self.folder / "crates/one/data/fault")
        self.assert_failed("one: no answer:", "    src/main.rt: refused")

    def test_crates_that_are_lost(self):
        self.listed("low: itoa\none: low\nthree: low\n")
        lines, status = self.told("one")
        self.assertEqual((lines[:2], lines[-1], status), (
            ["three: crates.txt names it, and there is no crates/three/src", "two: a program that crates.txt doesn't name"],
            "1 passed, 2 failed", 1))

    def test_a_long_line_is_told_round_the_difference(self):
        theirs, ours = quick.difference(b"a" * 300 + b"b" * 300, b"a" * 300 + b"c" + b"b" * 299)
        self.assertEqual(theirs, "line 1 of its stdout: ...'" + "a" * 40 + "b" * 80 + "'...")
        self.assertEqual(ours, "line 1 that it wrote: ...'" + "a" * 40 + "c" + "b" * 79 + "'...")
