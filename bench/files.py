#!/usr/bin/env python3
"""Times the built program on large files, and tells its peak memory.

    python3 bench/files.py [PROGRAM]

PROGRAM is the file that `rt run` leaves in crates/mathlay/out/mathlay. Each file is read five times,
of which the least time counts, and once more for the peak memory.
"""
import os
import subprocess
import sys
import tempfile
import time

HERE = os.path.dirname(os.path.abspath(__file__))
PROGRAM = os.path.join(HERE, "..", "crates", "mathlay", "out", "mathlay")
HEAD = "mathlay-metrics 1\nupem 1024\nline 900 300\nxheight 512\nglyph missing 512 600 0\n"
TREE = '{"name":"math","children":[{"name":"mn","text":"1"}]}'
LIMIT = 8_388_608


def glyphs(count):
    """A file of so many glyph lines, `missing` included."""
    return HEAD + "".join(f"glyph g{n:05} {n} {n - 100} -{n % 1000}\n" for n in range(1, count))


def characters():
    """A file of the most bytes that are read: as many characters as fit, and a faulty last line."""
    line = "char {:06X} missing\n"
    count = (LIMIT - len(HEAD)) // len(line.format(0)) - 1
    text = HEAD + "".join(line.format(code) for code in range(0x1_0000, 0x1_0000 + count))
    return text + "?" * (LIMIT - len(text) - 1) + "\n"


def full():
    """A file of all glyphs, a character for each, and variants and parts up to the most bytes."""
    lines = [HEAD]
    lines += (f"glyph g{n} {n} {n - 100} -{n % 1000} {n % 300} {n % 400}\n" for n in range(1, 65_535))
    lines += (f"char {0x1_0000 + n:05X} g{n}\n" for n in range(1, 65_535))
    size = sum(map(len, lines))
    for n in range(1, 65_535):
        more = f"vvariant g{n} g{n - n % 7 or 1} {n}\nhvariant g{n} g{n} {n}\nvassembly g{n} g1 EXT 1 2 {n}\n"
        if size + len(more) > LIMIT:
            break
        lines.append(more)
        size += len(more)
    return "".join(lines)


def wide():
    """A tree of 65,536 elements and almost 4 MB, with an attribute and a text each."""
    kid = '{{"attributes":{{"class":"e {:05}"}},"name":"mi","text":"{:0<4}"}}'
    kids = ",".join(kid.format(n, n % 1000) for n in range(65_535))
    return '{"children":[' + kids + '],"name":"math"}'


SMALL = HEAD + "glyph one 512 680 0\nchar 0031 one\n"

# What is timed, the command, its metrics, its tree, and the status that it ends with.
RUNS = [
    ("65,535 glyph lines, read", "layout", glyphs(65_535), TREE, 0),
    ("65,536 glyph lines, refused", "layout", glyphs(65_536), TREE, 3),
    ("8,388,608 bytes of one line, refused", "layout", "7" * (LIMIT - 1) + "\n", TREE, 3),
    ("8,388,608 bytes of line feeds, refused", "layout", "\n" * LIMIT, TREE, 3),
    ("8,388,608 bytes of char lines, refused at the last", "layout", characters(), TREE, 3),
    ("all glyphs, characters, variants and parts, read", "layout", full(), TREE, 0),
    ("the same, printed", "check", full(), TREE, 0),
    ("a tree of 65,536 elements, printed", "check", SMALL, wide(), 0),
]


def seconds_of(command, metrics, tree, wanted):
    start = time.perf_counter()
    process = subprocess.run([PROGRAM, command, metrics, tree], stdout=subprocess.DEVNULL)
    assert process.returncode == wanted, process.returncode
    return time.perf_counter() - start


def peak_of(command, metrics, tree):
    """The peak memory in bytes: the program writes only at its end, so a full pipe holds it there."""
    reader, writer = os.pipe()
    os.set_blocking(writer, False)
    try:
        while True:
            os.write(writer, b" " * 4096)
    except BlockingIOError:
        os.set_blocking(writer, True)
    process = subprocess.Popen([PROGRAM, command, metrics, tree], stdout=writer)
    os.close(writer)
    time.sleep(3)
    with open(f"/proc/{process.pid}/status") as file:
        peak = next(int(line.split()[1]) * 1024 for line in file if line.startswith("VmHWM"))
    while os.read(reader, 65536):
        pass
    os.close(reader)
    process.wait()
    return peak


def main():
    global PROGRAM
    PROGRAM = os.path.abspath(sys.argv[1] if len(sys.argv) > 1 else PROGRAM)
    with tempfile.TemporaryDirectory() as folder:
        metrics, tree = os.path.join(folder, "metrics"), os.path.join(folder, "tree")
        print(f"{'files':52} {'bytes':>9} {'seconds':>8} {'peak':>11} {'of them':>8}")
        for name, command, font, formula, wanted in RUNS:
            for path, text in ((metrics, font), (tree, formula)):
                with open(path, "w") as file:
                    file.write(text)
            size = len(font) + len(formula)
            seconds = min(seconds_of(command, metrics, tree, wanted) for _ in range(5))
            peak = peak_of(command, metrics, tree)
            print(f"{name:52} {size:9} {seconds:8.3f} {peak:11} {peak / size:7.1f}x")


if __name__ == "__main__":
    main()
