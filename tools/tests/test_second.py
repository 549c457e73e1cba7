"""The second engine on the samples and on a small script, and what it says of words and files that are none."""

import json
import subprocess
import sys
import tempfile
import unittest
from io import BytesIO
from pathlib import Path
from unittest import mock

from second import program
from second.json_text import NotJson, read_json
from second.lengths import length_of, resolved
from second.metrics_reading import read_metrics
from second.numbers import rounded

from tests.common import TOP

SAMPLES = TOP / "samples"
FONT = (SAMPLES / "latin-modern-math.metrics").read_bytes()
SMALL = b"mathlay-metrics 1\nupem 1024\nline 900 300\nxheight 512\nglyph missing 512 600 0\nglyph one 512 680 0\nchar 0031 one\n"
ONE = b'{"name":"math","children":[{"name":"mn","text":"1"}]}'


class Files:
    """Files in memory."""

    def __init__(self, **files):
        self.files = files

    def open(self, name):
        if name not in self.files:
            raise FileNotFoundError(name)
        return BytesIO(self.files[name])


def run(*words, **files):
    """The status and the bytes of a run."""
    written = []
    return program.run(list(words), Files(**files), written.append), b"".join(written)


class SecondEngine(unittest.TestCase):
    def test_small_files_of_the_formats(self):
        lines = b"box 1 math 0 0 8192 14400 4800 10880 0\nbox 2 mn 0 0 8192 14400 4800 10880 0\nglyph 0 0 16384 one\n"
        self.assertEqual(run("layout", "m", "t", m=SMALL, t=ONE), (0, lines))

    def test_the_picture_of_the_formats(self):
        picture = b'<svg xmlns="http://www.w3.org/2000/svg" viewBox="0 -14400 8192 19200">\n<use href="#one" transform="translate(0 0) scale(16384)"/>\n</svg>\n'
        self.assertEqual(run("paint", "m", "t", m=SMALL, t=ONE), (0, picture))
        self.assertEqual(run("paint", "m", "t", m=SMALL, t=b'{"name":"math"}')[1].count(b"\n"), 2)

    def test_pointing_and_selecting(self):
        sample = (TOP / "crates" / "run_cases" / "data" / "sample.metrics").read_bytes()
        tree = b'{"name":"math","children":[{"name":"mfrac","children":[{"name":"mn","text":"1"},{"name":"mn","text":"1"}]}]}'
        for x, y, told in ((2000, -7000, b"3"), (2000, -4000, b"4"), (100, 0, b"2"), (8191, 0, b"2"), (8192, 0, b"none"), (-1, 0, b"none"), (100, 9200, b"none"), (100, -17200, b"2")):
            self.assertEqual(run("hit", "m", "t", str(x), str(y), m=sample, t=tree), (0, b"hit " + told + b"\n"))
        both = b"area 1024 -17200 6144 14400\narea 1024 -5200 6144 14400\n"
        self.assertEqual(run("select", "m", "t", "4", "3", m=sample, t=tree), (0, both))
        self.assertEqual(run("select", "m", "t", "2", "3", m=sample, t=tree), (0, b"area 0 -17200 8192 26400\n"))
        self.assertEqual(run("select", "m", "t", "3", "09", m=sample, t=tree), (10, b"node 9\n"))
        for words in (("hit", "m", "t", "1", "123456789012"), ("hit", "m", "t", "-", "1"), ("select", "m", "t", "1", "4294967296"), ("select", "m", "t", "1", "-1")):
            self.assertEqual(run(*words, m=sample, t=tree)[0], 2)

    def test_undo_and_redo(self):
        undo, redo, show = (b'{"op":"%s"}\n' % op for op in (b"undo", b"redo", b"show"))
        insert = b'{"op":"insert","node":1,"index":0,"element":{"name":"mn","text":"1"}}\n'

        def replies(depth, *lines):
            return run("history", depth, "m", "t", "s", m=SMALL, t=ONE, s=b"".join(lines))[1]

        self.assertRegex(replies("5", insert, undo, redo, show), b"(?s)^ok\nok\nok\nshown\n.*\nbox 3 mn ")
        self.assertRegex(replies("5", insert, undo, undo, insert, redo, show), b"(?s)^ok\nok\nrefused nothing\nok\nrefused nothing\nshown\n.*\nbox 4 mn ")
        edits = [b'{"op":"text","node":2,"text":"%s"}\n' % (b"1" * count) for count in (2, 3)]
        self.assertEqual(replies("1", *edits, undo, undo), b"ok\nok\nok\nrefused nothing\n")
        self.assertEqual(replies("1", *edits, undo, show), b"ok\nok\nok\n" + run("edit", "m", "t", "s", m=SMALL, t=ONE, s=edits[0] + show)[1][3:])
        self.assertEqual(run("edit", "m", "t", "s", m=SMALL, t=ONE, s=undo), (0, b"refused line\n"))
        for depth in ("0", "1001", "00001", "-1"):
            self.assertEqual(run("history", depth, "m", "t", "s", m=SMALL, t=ONE, s=b"")[0], 2)

    def test_a_superscript_moves_in_by_kerns(self):
        sample = (TOP / "crates" / "run_cases" / "data" / "sample.metrics").read_bytes()
        kerned = sample.replace(b"metrics 1", b"metrics 2", 1) + b"kern x.it TR -40 400 -20\nkern one BL 0 100 10\n"
        tree = b'{"name":"math","children":[{"name":"msup","children":[{"name":"mi","text":"x"},{"name":"mn","text":"1"}]}]}'
        self.assertIn(b"\nglyph 9080 -5760 12288 one\n", run("layout", "m", "t", m=kerned, t=tree)[1])
        self.assertIn(b"\nglyph 9280 -5760 12288 one\n", run("layout", "m", "t", m=sample, t=tree)[1])
        self.assertIn(b"\nkern one BL 0 100 10\nkern x.it TR -40 400 -20\nvvariant ", run("check", "m", "t", m=kerned, t=tree)[1])

    def test_faults_of_kerns(self):
        for line, kind in ((b"x", 3), (b"kern one TR", 4), (b"kern nobody TR x", 8), (b"kern one XX x", 7), (b"kern one TR 0 x 0", 5), (b"kern one TR 0 70000 0", 6), (b"kern one TR 0 5 0 5 0", 15)):
            with self.subTest(line):
                metrics = SMALL.replace(b"metrics 1", b"metrics 2") + line
                self.assertEqual(run("check", "m", "t", m=metrics, t=ONE), (3, b"metrics 8 %d\n" % kind))
        self.assertEqual(run("check", "m", "t", m=SMALL + b"kern one TR 0", t=ONE), (3, b"metrics 8 3\n"))
        self.assertEqual(run("check", "m", "t", m=SMALL.replace(b"metrics 1", b"metrics 3"), t=ONE), (3, b"metrics 1 2\n"))

    def test_from_right_to_left(self):
        sample = (TOP / "crates" / "run_cases" / "data" / "sample.metrics").read_bytes()
        tree = b'{"name":"math","attributes":{"dir":"RTL"},"children":[{"name":"msqrt","children":[{"name":"mn","text":"1"}]}]}'
        written = run("layout", "m", "t", m=sample, t=tree)[1]
        self.assertIn(b"\nglyph 8192 320 16384 surd\nrule 0 -12480 8192 640\nbox 3 mn 0 0 8192 ", written)
        tree = b'{"name":"math","children":[{"name":"mn","text":"1"},{"name":"mi","text":"x"}]}'
        script = b'{"op":"attr","node":1,"name":"dir","value":"rtl"}\n{"op":"show"}\n'
        written = run("edit", "m", "t", "s", m=sample, t=tree, s=script)[1]
        self.assertTrue(written.startswith(b"ok\nshown\nbox 1 math 0 0 17472 14400 4800 10880 128\nbox 2 mn 9280 0 "))

    def test_cells_that_span(self):
        sample = (TOP / "crates" / "run_cases" / "data" / "sample.metrics").read_bytes()

        def cell(content, **attributes):
            return {"name": "mtd", "attributes": attributes, "children": [content]}

        def boxes(*rows):
            table = {"name": "mtable", "children": [{"name": "mtr", "children": row} for row in rows]}
            written = run("layout", "m", "t", m=sample, t=json.dumps({"name": "math", "children": [table]}).encode())[1]
            return {int(words[1]): tuple(map(int, words[3:8])) for words in (line.split(b" ") for line in written.split(b"\n")) if words[0] == b"box"}

        one = cell({"name": "mn", "text": "1"})
        wide = boxes([cell({"name": "mspace", "attributes": {"width": "50.001px"}}, columnspan="2")], [one, one])
        self.assertEqual((wide[2][2:], wide[7][0], wide[9][0]), ((64309, 21888, 13696), 5427, 37582))
        deep = boxes([cell({"name": "mspace", "attributes": {"depth": "40px"}}, rowspan="2"), one], [one])
        self.assertEqual((deep[2][2:], deep[9][0]), ((34408, 35872, 27680), 13108))
        self.assertEqual(boxes([one], [one, one]), boxes([cell(one["children"][0], rowspan="0", columnspan="00")], [one, one]))

    def test_every_sample_is_laid_out_with_its_own_font(self):
        font = read_metrics(FONT)
        for path in sorted(SAMPLES.glob("*.json")):
            with self.subTest(path.name), mock.patch.object(program, "read_metrics", lambda _: font):
                status, written = run("layout", "m", "t", m=FONT, t=path.read_bytes())
                self.assertEqual((status, written[:11]), (0, b"box 1 math "))

    def test_the_canonical_form_is_read_back(self):
        written = run("check", "m", "t", m=SMALL, t=(SAMPLES / "fences.json").read_bytes())
        self.assertEqual(written[0], 0)
        *metrics, tree = written[1].splitlines(keepends=True)
        self.assertEqual(run("check", "m", "t", m=b"".join(metrics), t=tree), written)

    def test_lines_of_the_readme(self):
        tree, script = (SAMPLES / "quadratic.json").read_bytes(), (SAMPLES / "quadratic.script").read_bytes()
        readme = (TOP / "README.md").read_text(encoding="utf-8")
        for words, files in ((("layout", "m", "t"), {}), (("edit", "m", "t", "s"), {"s": script})):
            status, written = run(*words, m=FONT, t=tree, **files)
            front = "\n".join(written.decode().split("\n")[: 6 if files else 7])
            self.assertEqual(status, 0)
            self.assertIn(front, readme)

    def test_statuses(self):
        self.assertEqual(run()[0], 2)
        self.assertEqual(run("layout", "m", "t", t=ONE), (5, b""))
        self.assertEqual(run("layout", "m", "t", m=b"", t=ONE), (3, b"metrics 1 2\n"))
        self.assertEqual(run("layout", "m", "t", m=SMALL, t=b"{"), (4, b"tree json\n"))
        self.assertEqual(run("layout", "m", "t", m=SMALL, t=b"{}"), (4, b"tree 1 2\n"))
        large = ONE.replace(b'"math"', b'"math","attributes":{"mathsize":"1025px"}')
        self.assertEqual(run("layout", "m", "t", m=SMALL, t=large), (8, b"range\n"))
        self.assertEqual(run("edit", "m", "t", "s", m=SMALL, t=ONE, s=b"x\n" * 65537), (9, b"refused line\n" * 65536))
        self.assertEqual(run("gen", "m", "1", "20001", m=SMALL)[0], 2)

    def test_replies_are_written_line_by_line(self):
        command = [sys.executable, "-B", str(TOP / "tools" / "second"), "edit", "m", "t", "/dev/stdin"]
        folder = Path(self.enterContext(tempfile.TemporaryDirectory()))
        (folder / "m").write_bytes(SMALL)
        (folder / "t").write_bytes(ONE)
        with subprocess.Popen(command, cwd=folder, stdin=subprocess.PIPE, stdout=subprocess.PIPE, bufsize=0) as child:
            for line, reply in ((b'{"op":"text","node":2,"text":"11"}\n', b"ok\n"), (b"x\n", b"refused line\n")):
                child.stdin.write(line)
                self.assertEqual(child.stdout.readline(), reply)
            child.stdin.close()
            self.assertEqual(child.wait(), 0)


class Parts(unittest.TestCase):
    def test_ties_go_up(self):
        self.assertEqual([rounded(number, 2) for number in (-3, -1, 1, 3)], [-1, 0, 1, 2])

    def test_lengths(self):
        self.assertEqual(resolved(length_of(" -1.5EM "), 1024, 0, 0), -1536)
        self.assertEqual(resolved(length_of("1in"), 0, 0, 0), 98304)
        for text in ("1", "1.px", ".", "1 px", "1e3px", "1234567890px", ""):
            self.assertIsNone(length_of(text), text)

    def test_what_is_no_json(self):
        for text in (b"", b"\xef\xbb\xbf1", b"NaN", b"01", b"1e999", b'"\\ud800"', b'"\x01"', b"[" * 128 + b"]" * 128, b"\xff"):
            self.assertRaises(NotJson, read_json, text)
        self.assertEqual(read_json(b'{"a":1,"a":[-0,18446744073709551616,"\\ud83d\\ude00"]}'), {"a": [0.0, 2.0**64, "\U0001f600"]})


if __name__ == "__main__":
    unittest.main()
