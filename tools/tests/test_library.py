"""The library for other programs: its answers are the program's own bytes, and programs of C that misuse it lose nothing.

`rt ci` proves it and builds no archive; `make library` does. In a clone where `rt ci` alone has built anything, as where `.ci/run`
runs, the archive is found or made here first, of what `rt ci` proved (gate_library.py): that proves the exports once more. The quick
run, which proves nothing, forbids it."""

import copy
import json
import os
import pickle
import random
import shutil
import subprocess
import sys
import threading
import unittest
import urllib.request

import gate_library
import quick
from tests.common import TOP, InFolder

PROGRAM = TOP / "crates" / "mathlay" / "out" / "mathlay"
SHARED = TOP / "libmathlay.so"
ARCHIVE = TOP / "libmathlay.a"
METRICS = TOP / "samples" / "latin-modern-math.metrics"
CALLS = "tools/tests/library/calls.c"
TREES = [TOP / "samples" / name for name in ("quadratic.json", "matrix.json", "tensor.json", "nested_roots.json")]
SCRIPTS = 1_000
# a tree whose layout is out of range
WIDE = b'{"name":"math","children":[{"name":"mspace","attributes":{"width":"2000000px"}}]}'
VALGRIND = shutil.which("valgrind")
MEMCHECK = [[VALGRIND, "-q", "--leak-check=full", "--error-exitcode=9"]] if VALGRIND else []
HELGRIND = [[VALGRIND, "-q", "--tool=helgrind", "--error-exitcode=9"]] if VALGRIND else []

needs_program = unittest.skipUnless(PROGRAM.exists(), "the program isn't built: rt run in crates/mathlay")
sys.path.insert(0, str(TOP / "bindings" / "python"))


# What came of finding or making the archive behind the gate: the status, and what was told.
BEHIND_THE_GATE = []


def setUpModule():
    if quick.NO_PROOF not in os.environ and gate_library.is_behind_the_gate():
        BEHIND_THE_GATE.append(gate_library.make())
        print(f"gate_library: {BEHIND_THE_GATE[0][1]}", flush=True)


def hindered(told):
    """Why a test over the archive is skipped, in a line."""
    return f"the library isn't made behind the gate: {told.splitlines()[0]}"


def needed(test, *files):
    """Skips a test where one of these isn't there, or wasn't made of what the gate has proved."""
    status, told = BEHIND_THE_GATE[0] if BEHIND_THE_GATE else (gate_library.MADE, "")
    if status:
        test.skipTest(hindered(told))
    lost = [file.name for file in files if not file.exists()]
    if lost:
        test.skipTest(f"{' and '.join(lost)} isn't built: make library")


def script_of(seed, elements):
    """Some lines that edit a tree, undo and redo: accepted and refused ones, some that are no command, and a show at the end."""
    draw = random.Random(seed)
    lines = []
    for _ in range(draw.randint(1, 12)):
        node = draw.randint(1, elements + 3)
        lines.append(draw.choice([
            {"op": "text", "node": node, "text": draw.choice(["1", "x", "+", "sin", ""])},
            {"op": "attr", "node": node, "name": "mathsize", "value": draw.choice(["2em", "50%", "no"])},
            {"op": "insert", "node": node, "index": draw.randint(0, 3), "element": {"name": "mi", "text": "y"}},
            {"op": "remove", "node": node},
            {"op": "replace", "node": node, "element": {"name": "mrow", "children": [{"name": "mn", "text": "7"}]}},
            {"op": "show"},
            {"op": "nothing"},
            {"op": "undo"},
            {"op": "redo"},
        ]))
    return [json.dumps(line).encode() for line in lines] + [b"  ", b'{"op":"show"}']


class TheGate(unittest.TestCase):
    def test_what_it_proved_makes_an_archive(self):
        if not BEHIND_THE_GATE:
            self.skipTest("the archive isn't made by gate_library.py here")
        status, told = BEHIND_THE_GATE[0]
        if status == gate_library.HINDERED:
            self.skipTest(hindered(told))
        self.assertEqual(status, gate_library.MADE, told)


class Library(InFolder):
    def setUp(self):
        super().setUp()
        needed(self, SHARED)

    def session(self, tree):
        from mathlay import Session
        session = Session(METRICS.read_bytes(), tree)
        self.addCleanup(session.close)
        return session

    def program(self, *words):
        return subprocess.run([PROGRAM, *words], stdout=subprocess.PIPE, timeout=120).stdout

    @needs_program
    def test_every_sample_is_shown_as_by_the_program(self):
        for sample in sorted((TOP / "samples").glob("*.json")):
            with self.subTest(sample=sample.name):
                shown = self.session(sample.read_bytes()).show()
                self.assertEqual(shown, b"shown\n" + self.program("layout", METRICS, sample))

    @needs_program
    def test_every_sample_is_shown_so_with_metrics_that_are_read_once(self):
        from mathlay import Metrics, Session
        samples = sorted((TOP / "samples").glob("*.json"))
        with Metrics(METRICS.read_bytes()) as font:
            sessions = [Session(font, sample.read_bytes()) for sample in samples]
        for sample, session in zip(samples, sessions):
            self.addCleanup(session.close)
            with self.subTest(sample=sample.name):
                self.assertEqual(session.show(), b"shown\n" + self.program("layout", METRICS, sample))

    def test_metrics_stay_whatever_becomes_of_a_session(self):
        from mathlay import MathlayError, Metrics, Refusal, Session
        tree = (TOP / "samples" / "quadratic.json").read_bytes()
        font = Metrics(METRICS.read_bytes())
        for wrong, status in ((b"{", 4), (b'{"name":"mi"}', 4), (WIDE, 8)):
            with self.assertRaises(Refusal) as caught:
                Session(font, wrong)
            self.assertEqual(caught.exception.status, status)
        one, other = Session(font, tree), Session(font, tree)
        page = self.session(tree).show()
        self.assertEqual(one.line(b'{"op":"text","node":14,"text":"44"}'), b"ok\n")
        self.assertNotEqual(one.show(), page)
        one.close()
        self.assertEqual(other.show(), page)
        font.close()
        font.close()
        self.assertEqual(other.line(b'{"op":"show"}'), page)
        other.close()
        with self.assertRaises(MathlayError) as caught:
            Session(font, tree)
        self.assertEqual((caught.exception.status, isinstance(caught.exception, Refusal)), (33, False))
        with self.assertRaises(Refusal) as caught:
            Metrics(b"none")
        self.assertEqual((caught.exception.status, caught.exception.line), (3, b"metrics 1 2\n"))

    @needs_program
    def test_scripts_are_answered_as_by_the_program(self):
        samples = sorted((TOP / "samples").glob("*.json"))
        for seed in range(SCRIPTS):
            sample = samples[seed % len(samples)]
            lines = script_of(seed, sample.read_bytes().count(b'"name"'))
            session = self.session(sample.read_bytes())
            answered = b"".join(session.line(line) for line in lines)
            session.close()
            path = self.file("script", b"\n".join(lines))
            self.assertEqual(answered, self.program("history", "1000", METRICS, sample, path), f"seed {seed}")

    @needs_program
    def test_every_sample_is_painted_as_by_the_program(self):
        for sample in sorted((TOP / "samples").glob("*.json")):
            with self.subTest(sample=sample.name):
                self.assertEqual(self.session(sample.read_bytes()).paint(), self.program("paint", METRICS, sample))

    @needs_program
    def test_elements_are_selected_as_by_the_program(self):
        draw = random.Random(2)
        for sample in (TOP / "samples" / "quadratic.json", TOP / "samples" / "matrix.json"):
            session, most = self.session(sample.read_bytes()), sample.read_bytes().count(b'"name"')
            for _ in range(40):
                first, second = draw.randint(0, most + 1), draw.randint(0, most + 1)
                try:
                    told = "".join(f"area {x} {y} {width} {height}\n" for x, y, width, height in session.select(first, second))
                except KeyError as missing:
                    told = f"node {missing.args[0]}\n"
                self.assertEqual(told.encode(), self.program("select", METRICS, sample, str(first), str(second)))

    def test_edits_are_undone_and_made_again(self):
        session = self.session((TOP / "samples" / "quadratic.json").read_bytes())
        self.assertFalse(session.undo() or session.redo())
        pages = [session.show()]
        for text in range(1_001):
            self.assertEqual(session.line(b'{"op":"text","node":14,"text":"%d"}' % text), b"ok\n")
            if text in (0, 999, 1_000):
                pages.append(session.show())
        self.assertTrue(session.undo())
        self.assertEqual(session.show(), pages[2])
        self.assertTrue(session.redo())
        self.assertEqual(session.show(), pages[3])
        self.assertEqual(sum(session.undo() for _ in range(1_001)), 1_000)
        self.assertEqual(session.show(), pages[1])
        self.assertEqual(session.line(b'{"op":"undo"}'), b"refused nothing\n")
        self.assertEqual(session.line(b'{"op":"redo"}'), b"ok\n")
        self.assertEqual(session.line(b'{"op":"remove","node":14}'), b"ok\n")
        self.assertFalse(session.redo())
        self.assertEqual(session.reply(), b"ok\n")

    def test_refusals_lose_nothing(self):
        from mathlay import MathlayError, Refusal, Session
        for tree, status, line in ((b"{", 4, b"tree json\n"), (b'{"name":"mi"}', 4, b"tree 1 1\n")):
            with self.assertRaises(Refusal) as caught:
                Session(METRICS.read_bytes(), tree)
            self.assertEqual(caught.exception.status, status)
            self.assertEqual(caught.exception.line[:4], line[:4])
        session = self.session(b'{"name":"math","children":[{"name":"mn","text":"1"}]}')
        before = session.show()
        with self.assertRaises(MathlayError) as caught:
            session.line(b" " * 1_048_577)
        self.assertEqual(caught.exception.status, 9)
        self.assertEqual(session.reply(), before)
        self.assertEqual(session.line(b'{"op":"remove","node":1}'), b"refused root\n")
        with self.assertRaises(KeyError) as missing:
            session.select(2, 9)
        self.assertEqual(missing.exception.args, (9,))
        self.assertEqual(session.show(), before)
        session.close()
        session.close()
        with self.assertRaises(MathlayError) as caught:
            session.show()
        self.assertEqual(caught.exception.status, 33)

    def test_the_root_is_the_first_box(self):
        session = self.session((TOP / "samples" / "quadratic.json").read_bytes())
        numbers = [int(word) for word in session.show().split(b"\n")[1].split()[5:]]
        self.assertEqual(list(session.root())[:3], numbers[:3])

    def test_a_point_hits_the_last_box_that_holds_it(self):
        session = self.session((TOP / "samples" / "nested_roots.json").read_bytes())
        boxes = [line.split() for line in session.show().split(b"\n") if line.startswith(b"box ")]
        draw = random.Random(1)
        width, ascent, descent = (int(word) for word in boxes[0][5:8])
        for _ in range(500):
            x, y = draw.randint(-2000, width + 2000), draw.randint(-ascent - 2000, descent + 2000)
            held = None
            for box in boxes:
                left, line, wide, high, deep = (int(word) for word in box[3:8])
                if left <= x < left + wide and line - high <= y < line + deep:
                    held = int(box[1])
            self.assertEqual(session.hit(x, y), held, (x, y))
        self.assertIsNone(session.hit(10**30, -(10**30)))

    def test_the_viewer_shows_a_formula_and_edits_it(self):
        words = [sys.executable, "-B", "examples/python/viewer.py", METRICS, TOP / "samples" / "quadratic.json", "0"]
        viewer = subprocess.Popen(words, cwd=TOP, env={**os.environ, "PYTHONPATH": "bindings/python"},
                                  stdout=subprocess.PIPE, stderr=subprocess.DEVNULL)
        self.addCleanup(viewer.stdout.close)
        self.addCleanup(viewer.wait)
        self.addCleanup(viewer.kill)
        page = viewer.stdout.readline().decode().strip()

        def asked(words):
            with urllib.request.urlopen(page + words, timeout=60) as answer:
                return answer.read()

        self.assertIn("√".encode(), asked(""))
        self.assertEqual(json.loads(asked("?x=14000&y=-4000"))["node"], 3)
        self.assertEqual(json.loads(asked("?node=3&text=7"))["told"], "ok")
        self.assertNotIn(b">=<", asked(""))

    def test_what_isnt_bytes_or_a_whole_number_is_refused_by_its_type(self):
        from mathlay import Metrics, Session
        session = self.session(b'{"name":"math"}')
        for call in (lambda: Session("", b""), lambda: Session(b"", 7), lambda: session.line('{"op":"show"}'), lambda: Metrics(""),
                     lambda: session.hit(0.5, 0), lambda: session.select(1.0, 1)):
            with self.assertRaises(TypeError):
                call()
        self.assertEqual(session.line(bytearray(b'{"op":"show"}\n')), session.show())

    def test_sessions_and_metrics_arent_copied(self):
        from mathlay import Metrics
        font = Metrics(METRICS.read_bytes())
        for owner in (self.session(b'{"name":"math"}'), font):
            for copying in (copy.copy, copy.deepcopy, pickle.dumps):
                with self.assertRaises(TypeError):
                    copying(owner)

    def test_threads_start_sessions_with_the_same_metrics(self):
        from mathlay import Metrics, Session
        pages = []
        with Metrics(METRICS.read_bytes()) as font:
            def formula():
                with Session(font, (TOP / "samples" / "quadratic.json").read_bytes()) as session:
                    pages.append(session.show())
            work = [threading.Thread(target=lambda: [formula() for _ in range(20)]) for _ in range(4)]
            for each in work:
                each.start()
            for each in work:
                each.join()
        self.assertEqual((len(pages), len(set(pages))), (80, 1))

    def test_threads_wait_for_each_other(self):
        session = self.session(b'{"name":"math","children":[{"name":"mn","text":"1"}]}')
        replies = []
        work = [threading.Thread(target=lambda: replies.extend(
            session.line(b'{"op":"text","node":2,"text":"7"}') for _ in range(200))) for _ in range(4)]
        for each in work:
            each.start()
        for each in work:
            each.join()
        self.assertEqual(replies, [b"ok\n"] * 800)


@unittest.skipUnless(shutil.which("cc"), "cc is needed")
class Archive(InFolder):
    """The library in programs of C. Valgrind runs them too, where there is one."""

    def setUp(self):
        super().setUp()
        needed(self, ARCHIVE)

    def built(self, source, *flags):
        program = str(self.folder / "program")
        subprocess.run(
            ["cc", "-std=c11", "-g", "-Wall", "-Wextra", "-Werror", *flags, source, "-Iinclude", "libmathlay.a", "-o", program],
            cwd=TOP, check=True)
        return program

    def said(self, *words):
        run = subprocess.run(words, cwd=TOP, stdout=subprocess.PIPE, stderr=subprocess.PIPE, timeout=600)
        self.assertEqual((run.returncode, run.stderr), (0, b""), run.stdout[-200:])
        return run.stdout

    def test_the_example_runs_and_loses_nothing(self):
        program = self.built("examples/c/quadratic.c")
        for words in ([], *MEMCHECK):
            said = self.said(*words, program)
            self.assertTrue(said.startswith(b"ok\nrefused root\nshown\nbox 1 math 0 0 "), said[:80])
            self.assertIn(b"\nroot ", said)

    def test_the_example_of_many_formulas_runs_and_loses_nothing(self):
        program = self.built("examples/c/formulas.c")
        for words in ([], *MEMCHECK):
            lines = self.said(*words, program, METRICS, *TREES).splitlines()
            self.assertEqual([line.split(b":")[0].decode() for line in lines], [str(tree) for tree in TREES])

    @unittest.skipUnless(shutil.which("make"), "make is needed")
    def test_it_is_installed_and_linked_there(self):
        needed(self, SHARED)
        prefix = self.folder / "prefix"
        subprocess.run(["make", "-s", "install-library", f"PREFIX={prefix}"], cwd=TOP, check=True)
        built = str(self.folder / "installed")
        subprocess.run(["cc", "examples/c/quadratic.c", f"-I{prefix}/include", f"-L{prefix}/lib", f"-Wl,-rpath,{prefix}/lib",
                        "-lmathlay", "-o", built], cwd=TOP, check=True)
        self.assertTrue(self.said(built).startswith(b"ok\n"))
        python = "import mathlay; print(mathlay.library()._name)"
        said = self.said("env", f"PYTHONPATH={prefix}/share/mathlay/python", sys.executable, "-B", "-c", python)
        self.assertEqual(said.decode().strip(), f"{prefix}/lib/libmathlay.so")

    def test_random_calls_are_answered_as_the_header_says(self):
        program = self.built(CALLS, "-fsanitize=address,undefined")
        wide = self.file("wide", WIDE)
        for seed in ("1", "2"):
            answers = self.said(program, seed, "10000", METRICS, wide, *TREES).split()
            self.assertEqual([int(answer) for answer in answers], [0, 3, 4, 8, 9, 10, 32, 33, 34, 35])

    def test_random_calls_lose_nothing_where_memory_is_refused(self):
        program = self.built(CALLS, "-DFAIL", "-Wl,--wrap=malloc,--wrap=realloc")
        for words, count in ([[], "10000"], *([words, "300"] for words in MEMCHECK)):
            self.assertIn(b"7", self.said(*words, program, "3", count, METRICS, *TREES).split())

    def test_a_session_goes_from_thread_to_thread(self):
        program = self.built("tools/tests/library/threads.c", "-pthread")
        for words in ([], *MEMCHECK, *HELGRIND):
            self.assertEqual(self.said(*words, program, METRICS, TOP / "samples" / "quadratic.json"), b"threads ok\n")
        deep = {"name": "mn", "text": "1"}
        for level in range(58):
            deep = {"name": ("mfrac", "mroot", "munder")[level % 3], "children": [deep, {"name": "mo", "text": "¯"}]}
        deep = self.file("deep", json.dumps({"name": "math", "children": [deep]}))
        self.assertEqual(self.said(program, METRICS, deep), b"threads ok\n")
