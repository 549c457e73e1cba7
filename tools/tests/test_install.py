"""What a user installs and reads first: the version, the manual page, README and the licences."""

import os
import re
import shutil
import subprocess
import unittest

import picture
from companion import formats
from tests.common import TOP, InFolder, run

PROGRAM = TOP / "crates" / "mathlay" / "out" / "mathlay"


class Version(unittest.TestCase):
    def test_it_is_the_same_everywhere(self):
        version = (TOP / "VERSION").read_text().strip()
        self.assertRegex(version, r"^\d+\.\d+\.\d+$")
        self.assertIn(f'"mathlay {version}"', (TOP / "docs" / "mathlay.1").read_text())
        self.assertIn(f"This is version {version}.", (TOP / "README.md").read_text())
        self.assertIn(f"\n## {version}, ", (TOP / "CHANGELOG.md").read_text())
        self.assertIn(version, run(picture, "--version")[1].decode())

    def test_licences(self):
        self.assertIn("Apache License\n                           Version 2.0", (TOP / "LICENSE-APACHE").read_text())
        self.assertTrue((TOP / "LICENSE-MIT").read_text().startswith("MIT License\n"))


class ManualPage(unittest.TestCase):
    def test_it_has_the_statuses_of_the_formats(self):
        text = (TOP / "docs" / "mathlay.1").read_text()
        for row in formats.table("How the program ends", "status"):
            self.assertIn(f".TP\n.B {row['status']}\n{row['what it says']}\n", text)


class Readme(unittest.TestCase):
    def setUp(self):
        self.text = (TOP / "README.md").read_text(encoding="utf-8")

    def test_it_is_short(self):
        self.assertLessEqual(self.text.count("\n"), 150)

    def test_its_commands_stay_in_one_folder(self):
        blocks = re.findall(r"^```\n(.*?)^```", self.text, re.DOTALL | re.MULTILINE)
        commands = [line for block in blocks for line in block.splitlines() if re.match(r"\(?(cd|rt|python3|make|/usr)\b", line)]
        self.assertGreaterEqual(len(commands), 7)
        for line in commands:
            self.assertFalse(line.startswith("cd "), line)
            for name in re.findall(r"(?:tools|samples)/[\w./-]+", line.replace("../../", "")):
                self.assertTrue((TOP / name).exists(), name)

    def test_its_links_lead_somewhere(self):
        for name in re.findall(r"\]\(([^)#:]+)[)#]", self.text):
            self.assertTrue((TOP / name).exists(), name)


@unittest.skipUnless(shutil.which("make"), "make is missing")
class Installed(InFolder):
    @unittest.skipUnless(PROGRAM.is_file(), f"{PROGRAM.relative_to(TOP)} isn't there: `rt ci` builds it")
    def test_program_and_tools(self):
        subprocess.run(["make", "-C", TOP, "install", f"PREFIX={self.folder}"], check=True, capture_output=True)
        names = sorted(os.listdir(self.folder / "bin"))
        self.assertEqual(names, ["mathlay", "mathlay-editor", "mathlay-explain", "mathlay-font_metrics", "mathlay-formula", "mathlay-mathml_tree",
                                 "mathlay-page", "mathlay-picture"])
        samples = self.folder / "share" / "mathlay" / "samples"
        tree = self.folder / "q.json"
        done = subprocess.run([self.folder / "bin" / "mathlay-mathml_tree", samples / "quadratic.mml", "-o", tree], capture_output=True)
        self.assertEqual((done.returncode, done.stderr), (0, b""))
        done = subprocess.run([self.folder / "bin" / "mathlay-explain", "layout", samples / "latin-modern-math.metrics", tree],
                              capture_output=True)
        self.assertEqual((done.returncode, done.stderr, done.stdout[:10]), (0, b"", b"box 1 math"))
        subprocess.run(["make", "-C", TOP, "uninstall", f"PREFIX={self.folder}"], check=True, capture_output=True)
        self.assertEqual(os.listdir(self.folder / "bin"), [])

    def test_without_the_program(self):
        done = subprocess.run(["make", "-C", TOP, "install", f"PREFIX={self.folder}", "PROGRAM=nowhere"], capture_output=True, text=True)
        self.assertNotEqual(done.returncode, 0)
