"""The program `mathlay` as the system runs it: that its words reach it, and the status with which it ends.

`rt ci` proves and builds it. What is written of all sorts of trees and scripts, cases tell (docs/CASES.md)."""

import ctypes
import os
import resource
import select
import shutil
import subprocess
import sys
import unittest
from pathlib import Path

from tests.common import TOP, InFolder

PROGRAM = TOP / "crates" / "mathlay" / "out" / "mathlay"
USAGE = (
    b"usage: mathlay layout METRICS TREE | edit METRICS TREE SCRIPT | check METRICS TREE | gen METRICS SEED COUNT"
    b" | paint METRICS TREE | hit METRICS TREE X Y | select METRICS TREE ID ID | history DEPTH METRICS TREE SCRIPT\n")
GENERATED = b"edits 1\nok 1\nwidth 5467264\nascent 19680\ndescent 10592\nboxes 833\n"
FILES = {
    "m": "mathlay-metrics 1\nupem 1024\nline 900 300\nxheight 512\nglyph missing 512 600 0\n",
    "t": '{"name":"math"}',
    # a space of 2,000,000 px
    "w": '{"name":"math","children":[{"name":"mspace","attributes":{"width":"2000000px"}}]}',
    "s": '{"op":"remove","node":1}',
    # a line that is longer by one byte than a script's may be
    "l": '{"op":"show"}\n' + "x" * 1_048_577,
}
# The words, the status and what is written.
ROWS = [
    (["layout", "m", "t"], 0, b"box 1 math 0 0 0 0 0 0 0\n"),
    (["edit", "m", "t", "s"], 0, b"refused root\n"),
    # every character is the glyph `missing`, 512 units of 1024 wide
    (["gen", "m", "1", "1"], 0, GENERATED),
    (["gen", "m", "1", "0"], 2, USAGE),
    (["paint", "m", "t"], 0, b'<svg xmlns="http://www.w3.org/2000/svg" viewBox="0 0 0 0">\n</svg>\n'),
    (["hit", "m", "t", "-1", "0"], 0, b"hit none\n"),
    (["hit", "m", "t", "-", "0"], 2, USAGE),
    (["select", "m", "t", "1", "1"], 0, b"area 0 0 0 0\n"),
    (["select", "m", "t", "1", "2"], 10, b"node 2\n"),
    (["select", "m", "t", "1", "4294967296"], 2, USAGE),
    (["history", "1", "m", "t", "s"], 0, b"refused root\n"),
    (["history", "00001", "m", "t", "s"], 2, USAGE),
    (["history", "1001", "m", "t", "s"], 2, USAGE),
    ([], 2, USAGE),
    (["layout", "m"], 2, USAGE),
    (["layout", "m", "t", "t"], 2, USAGE),
    # words that are no text
    (["layout", "m", b"\xff"], 2, USAGE),
    ([b"\xc3", "m", "t"], 2, USAGE),
    (["layout", "t", "t"], 3, b"metrics 1 2\n"),
    (["layout", "m", "m"], 4, b"tree json\n"),
    (["layout", "m", "none"], 5, b""),
    # a folder
    (["layout", "m", "."], 5, b""),
    (["edit", "m", "t", "."], 5, b""),
    (["edit", "m", "t", "none"], 5, b""),
    (["layout", "m", "w"], 8, b"range\n"),
    (["edit", "m", "t", "l"], 9, b"shown\nbox 1 math 0 0 0 0 0 0 0\n"),
]
# What an editor says, one line after another, and what it is answered.
TALK = [
    (b'{"op":"attr","node":1,"name":"class","value":"a"}\n', b"ok\n"),
    (b'{"op":"show"}\n', b"shown\nbox 1 math 0 0 0 0 0 0 0\n"),
    (b'{"op":"remove","node":1}\n', b"refused root\n"),
    (b"Hello?\n", b"refused line\n"),
]
# Edits of every kind, of which some are undone and redone: at the end of what is kept, after refusals and after new edits too.
KERNS = FILES["m"].replace("metrics 1", "metrics 2") + "glyph x 400 500 10\nchar 0078 x\nkern x TR -20 100 5\n"
GROWN = """{"name":"math","children":[{"name":"mi","text":"x"},{"name":"mo","text":"+"},{"name":"msup","children":[
{"name":"mi","text":"x"},{"name":"mn","text":"2"}]}]}"""
EDITS = """{"op":"text","node":2,"text":"abc"}
{"op":"attr","node":4,"name":"mathsize","value":"2em"}
{"op":"undo"}
{"op":"redo"}
{"op":"insert","node":1,"index":0,"element":{"name":"mfrac","children":[{"name":"mn","text":"1"},{"name":"mi","text":"x"}]}}
{"op":"remove","node":4}
{"op":"undo"}
{"op":"show"}
{"op":"replace","node":4,"element":{"name":"msqrt","children":[{"name":"mn","text":"7"}]}}
{"op":"attr","node":2,"name":"mathsize","value":"2000px"}
{"op":"undo"}
{"op":"undo"}
{"op":"redo"}
{"op":"remove","node":99}
{"op":"undo"}
{"op":"undo"}
{"op":"undo"}
{"op":"redo"}
{"op":"redo"}
{"op":"text","node":2,"text":"y"}
{"op":"redo"}
{"op":"show"}
"""
# Runs whose memory is refused.
HUNGRY = (
    ["layout", "m", "t"], ["paint", "m", "t"], ["select", "m", "t", "2", "5"], ["edit", "m", "t", "s"], ["history", "3", "m", "t", "s"])
# How long the program may be silent before a conversation counts as broken off, in seconds.
SILENCE = 120
# Runs the words that it is given, and tells their status and the most memory that they had, in KiB. It is a process of its own,
# since what the tests themselves have would count too.
PEAK = """import resource, subprocess, sys
ended = subprocess.run(sys.argv[1:], stdout=subprocess.DEVNULL)
print(ended.returncode, resource.getrusage(resource.RUSAGE_CHILDREN).ru_maxrss)
"""
# How much more memory may be had by chance, in KiB: 1 MiB.
SLACK = 1024
# A program that `rt try` compiled is linked with the address sanitizer, which by itself holds back memory that was freed.
FREED = {"ASAN_OPTIONS": "quarantine_size_mb=0:thread_local_quarantine_size_kb=0"}


@unittest.skipUnless(PROGRAM.is_file(), f"{PROGRAM.relative_to(TOP)} isn't there: `rt ci` builds it")
class Program(InFolder):
    def setUp(self):
        super().setUp()
        for name, text in FILES.items():
            self.file(name, text)

    def ended(self, words, out=subprocess.PIPE, **how):
        """The status with which the program ends, and what it writes to a pipe; it writes no errors."""
        ran = subprocess.run([PROGRAM, *words], cwd=self.folder, stdout=out, stderr=subprocess.PIPE, timeout=60, **how)
        self.assertEqual(ran.stderr, b"")
        return ran.returncode, ran.stdout

    def test_words_lead_to_a_status(self):
        for words, status, written in ROWS:
            with self.subTest(words=words):
                self.assertEqual(self.ended(words), (status, written))

    def test_not_even_the_programs_name(self):
        # The system may put an empty name in place of none.
        none = (ctypes.c_char_p * 1)()
        with_none = {"preexec_fn": lambda: ctypes.CDLL(None).execve(os.fsencode(PROGRAM), none, none)}
        self.assertEqual(self.ended(["layout", "m", "t"], **with_none), (2, USAGE))

    def test_a_device_that_is_full(self):
        with open("/dev/full", "wb") as full:
            self.assertEqual(self.ended(["layout", "m", "t"], full), (6, None))

    def test_a_file_that_takes_three_bytes(self):
        # The system takes a front, and then none, since Python ignores the signal that would end the program.
        limited = {"preexec_fn": lambda: resource.setrlimit(resource.RLIMIT_FSIZE, (3, 3)), "restore_signals": False}
        with open(self.folder / "written", "wb") as short:
            self.assertEqual(self.ended(["layout", "m", "t"], short, **limited), (6, None))
        self.assertEqual((self.folder / "written").read_bytes(), b"box")

    def reply(self, program, length):
        """The next bytes that the program writes: fewer where it ends, or stays silent for long."""
        written = b""
        while len(written) < length and select.select([program.stdout], [], [], SILENCE)[0]:
            piece = os.read(program.stdout.fileno(), length - len(written))
            if not piece:
                break
            written += piece
        return written

    def talking(self):
        """The program with a pipe as its script, and the pipe's other end, whose opening waits for nobody."""
        os.mkfifo(self.folder / "talk")
        script = os.open(self.folder / "talk", os.O_RDWR)
        program = subprocess.Popen([PROGRAM, "edit", "m", "t", "talk"], cwd=self.folder, stdout=subprocess.PIPE, bufsize=0)
        for cleanup in (program.stdout.close, program.wait, program.kill):
            self.addCleanup(cleanup)
        return program, script

    def test_a_conversation(self):
        program, script = self.talking()
        with open(script, "wb", buffering=0) as talk:
            # Each line is written only once the reply to the one before was read.
            for number in range(10_000):
                line, reply = TALK[number % len(TALK)]
                talk.write(line)
                self.assertEqual(self.reply(program, len(reply)), reply, number)
            # A last line without a line feed is answered once the pipe is closed.
            talk.write(b'{"op":"show"}')
        self.assertEqual(self.reply(program, len(TALK[1][1]) + 1), TALK[1][1])
        self.assertEqual(program.wait(SILENCE), 0)

    def peak(self, *given):
        """The most memory in KiB that the program has, which gets these words."""
        words = [sys.executable, "-c", PEAK, PROGRAM, *given]
        told = subprocess.run(words, cwd=self.folder, stdout=subprocess.PIPE, check=True, env={**os.environ, **FREED}).stdout
        status, most = map(int, told.split())
        self.assertEqual(status, 0)
        return most

    def test_memory_for_one_line(self):
        # 64 MiB of lines: more than the Python that measures has, whose memory counts as the program's until that begins.
        line = " " * 1010 + '{"op":"show"}\n'
        self.file("one", line)
        with open(self.folder / "many", "w", encoding="utf-8") as many:
            many.writelines([line] * 65_536)
        many, one = (self.peak("edit", "m", "t", name) for name in ("many", "one"))
        self.assertLess(many, one + SLACK)

    def test_a_tree_is_read_without_its_json_value(self):
        # A value has some 850 bytes for each element. It is made where a key comes twice, and no annotation is laid out.
        rest = ',{"text":"x","name":"annotation"}' * 40_000
        for name, first in (("tokens", '{"text":"x","name":"mi"}'), ("value", '{"text":"x","text":"x","name":"mi"}')):
            self.file(name, f'{{"children":[{{"children":[{first}{rest}],"name":"semantics"}}],"name":"math"}}')
        self.assertEqual(*(self.ended(["layout", "m", name]) for name in ("tokens", "value")))
        self.assertLess(self.peak("layout", "m", "tokens") + 16 * SLACK, self.peak("layout", "m", "value"))


@unittest.skipUnless(PROGRAM.is_file(), f"{PROGRAM.relative_to(TOP)} isn't there: `rt ci` builds it")
@unittest.skipUnless(shutil.which("cc"), "cc is missing, which compiles what refuses memory")
class RefusedMemory(InFolder):
    """Every piece of memory that a run asks for is refused in turn."""

    def setUp(self):
        super().setUp()
        for name, text in (("m", KERNS), ("t", GROWN), ("s", EDITS)):
            self.file(name, text)
        self.preload = str(self.folder / "refuse.so")
        source = Path(__file__).resolve().parent / "refuse.c"
        subprocess.run(["cc", "-shared", "-fPIC", "-O1", source, "-o", self.preload], check=True)

    def ended(self, words, number):
        """The status and the bytes of a run whose request for memory of that number is refused, and what it tells."""
        environment = {"LD_PRELOAD": self.preload, "REFUSE": str(number)}
        ran = subprocess.run([PROGRAM, *words], cwd=self.folder, capture_output=True, timeout=60, env=environment)
        return ran.returncode, ran.stdout, ran.stderr

    def test_a_front_and_status_7(self):
        for words in HUNGRY:
            status, whole, told = self.ended(words, 0)
            self.assertEqual(status, 0)
            if not int(told or 0):
                self.skipTest(f"{PROGRAM.relative_to(TOP)} brings an allocator of its own, as what `rt try` compiles does")
            for number in range(1, int(told) + 1):
                status, front, errors = self.ended(words, number)
                self.assertEqual((words, number, status, errors), (words, number, 7, b""))
                self.assertTrue(whole.startswith(front), (words, number, front))
            self.assertGreater(int(told), 50)
