"""The archive that is made behind the gate, over a small repository and a kit of nothing."""

import stat
import sys
from pathlib import Path
from unittest import mock

import gate_library
import quick
from tests.common import InFolder

# Writes what the archive would be, or refuses.
RATTLE = """#!/bin/sh
echo "$@"
[ ! -e refused ] || exit 1
for word; do file=$word; done
echo archive > "$file"
"""


class Gate(InFolder):
    def setUp(self):
        super().setUp()
        kit = self.folder / "kit" / "bin"
        for name, place in ((quick, self.folder), (gate_library, self.folder)):
            patch = mock.patch.object(name, "TOP", place)
            patch.start()
            self.addCleanup(patch.stop)
        path = mock.patch.dict("os.environ", {"PATH": f"{kit}:/usr/bin:/bin"})
        path.start()
        self.addCleanup(path.stop)
        kit.mkdir(parents=True)
        for name, text in (("rt", "#!/bin/sh\n"), ("rattle", RATTLE)):
            (kit / name).write_text(text)
            (kit / name).chmod(stat.S_IRWXU)
        self.file("crates.txt", "low: itoa\nmid: low\nembed_c staticlib: mid\nabove: mid\n")
        self.file("Makefile", "archive:\n\tcp crates/embed_c/out/libembed_c.a libmathlay.a\n\techo shared > libmathlay.so\n")
        self.exports = self.folder / "crates" / "embed_c"
        (self.exports / "src").mkdir(parents=True)
        for name in ("low", "mid"):
            self.built(name)

    def made_anew(self):
        status, told = gate_library.make()
        self.assertEqual((status, told[:7]), (gate_library.MADE, "made in"), told)

    def library(self, name):
        return self.folder / "crates" / name / "out" / "rlib" / f"{name}.rlib"

    def built(self, name):
        self.library(name).mkdir(parents=True)
        (self.library(name) / "format").write_text("")

    def test_the_archive_is_made_over_the_libraries_below(self):
        self.made_anew()
        self.assertEqual((self.folder / "libmathlay.a").read_text(), "archive\n")
        words = gate_library.words(Path("/kit"))
        self.assertIn(f"mid={self.folder}/crates/mid/out/rlib/mid.rlib", words)
        self.assertIn(f"dependency={self.folder}/crates/low/out/rlib", words)
        self.assertNotIn("above", " ".join(words))

    def test_what_was_made_of_the_same_is_found(self):
        self.made_anew()
        found = gate_library.MADE, "the library that was made of the same before"
        self.assertEqual(gate_library.make(), found)
        for changed in (self.exports / "src" / "lib.rt", self.library("low") / "format", self.folder / "libmathlay.so"):
            changed.write_text("another")
            self.made_anew()
            self.assertEqual(gate_library.make(), found)

    def test_what_is_refused_is_told(self):
        (self.exports / "refused").write_text("")
        status, told = gate_library.make()
        self.assertEqual(status, gate_library.REFUSED)
        self.assertIn("embed_c isn't built: status 1\nbuild --crate-name embed_c", told)

    def test_a_compiler_that_isnt_there_is_told(self):
        with mock.patch.dict("os.environ", {"PATH": str(self.folder / "kit" / "bin")}):
            self.assertEqual(gate_library.make(),
                             (gate_library.HINDERED, "make, ar, cc: not in PATH, and needed to make the library"))

    def test_a_library_that_isnt_there_hinders_it(self):
        (self.library("mid") / "format").unlink()
        self.assertEqual(gate_library.make(), (gate_library.HINDERED, "mid: not built by `rt ci`"))
        self.assertFalse(gate_library.is_behind_the_gate())

    def test_a_stamp_tells_another_command_from_the_gate(self):
        self.assertTrue(gate_library.is_behind_the_gate())
        (self.library("low").parent / "stamp").write_text("")
        self.assertFalse(gate_library.is_behind_the_gate())

    def test_what_takes_too_long_is_stopped(self):
        sleeping = [sys.executable, "-c", "import time; time.sleep(60)"]
        self.assertEqual(gate_library.within(0.2, sleeping, self.folder), (gate_library.HINDERED, "stopped after 0.2 s"))
