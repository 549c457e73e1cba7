#!/usr/bin/env python3
"""Sends scripts through a pipe to the built program, and tells its peak memory.

    python3 bench/pipe.py [PROGRAM]

PROGRAM is the file that `rt run` leaves in crates/mathlay/out/mathlay. The first script is short, and the others have a GB in
lines of the same length: edits that are made, each with a new value of an attribute, and lines of the most bytes, each of which
is refused. Every line has to get its reply. The memory of a script of a GB is to be that of a short one.
"""
import os
import subprocess
import sys
import tempfile
import threading
import time

HERE = os.path.dirname(os.path.abspath(__file__))
PROGRAM = os.path.join(HERE, "..", "crates", "mathlay", "out", "mathlay")
METRICS = "mathlay-metrics 1\nupem 1024\nline 900 300\nxheight 512\nglyph missing 512 600 0\n"
TREE = '{"name":"math","children":[{"name":"mi","text":"x"}]}'
GB = 1 << 30
LIMIT = 1 << 20

# What is sent: a line without its value, the bytes of a line with its line feed, how many lines, and the reply to each.
EDIT = b'{"op":"attr","node":2,"name":"class","value":"%b"}\n'
RUNS = [
    ("64 edits of 16 KiB", 1 << 14, 64, b"ok"),
    ("65,536 edits of 16 KiB", 1 << 14, GB >> 14, b"ok"),
    ("64 lines of 1 MiB, refused", LIMIT, 64, b"refused long"),
    ("1,024 lines of 1 MiB, refused", LIMIT, GB // LIMIT, b"refused long"),
]


def line_of(length, number):
    """A line of so many bytes, of which the first ones of the value differ from line to line."""
    room = length - len(EDIT % b"")
    return EDIT % (b"%08d" % number).ljust(room, b"x")


def send(metrics, tree, length, count, reply):
    """The seconds that a run takes, those of processor time among them, and its peak memory in KiB, before it ends."""
    start = time.perf_counter()
    program = subprocess.Popen([PROGRAM, "edit", metrics, tree, "/dev/stdin"], stdin=subprocess.PIPE, stdout=subprocess.PIPE)
    sender = threading.Thread(target=write_lines, args=(program.stdin, length, count))
    sender.start()
    replies = sum(program.stdout.readline() == reply + b"\n" for _ in range(count))
    with open(f"/proc/{program.pid}/status") as file:
        peak = next(int(line.split()[1]) for line in file if line.startswith("VmHWM"))
    sender.join()
    program.stdin.close()
    _, status, used = os.wait4(program.pid, 0)
    assert (status, replies) == (0, count), (status, replies)
    return time.perf_counter() - start, used.ru_utime + used.ru_stime, peak


def write_lines(pipe, length, count):
    for number in range(count):
        pipe.write(line_of(length, number))
    pipe.flush()


def main():
    global PROGRAM
    PROGRAM = os.path.abspath(sys.argv[1] if len(sys.argv) > 1 else PROGRAM)
    with tempfile.TemporaryDirectory() as folder:
        metrics, tree = os.path.join(folder, "metrics"), os.path.join(folder, "tree")
        for path, text in ((metrics, METRICS), (tree, TREE)):
            with open(path, "w") as file:
                file.write(text)
        print(f"{'script':32} {'bytes':>13} {'seconds':>8} {'of processor':>12} {'peak KiB':>9}")
        for name, length, count, reply in RUNS:
            seconds, used, peak = send(metrics, tree, length, count, reply)
            print(f"{name:32} {length * count:13,} {seconds:8.1f} {used:12.1f} {peak:9,}", flush=True)


if __name__ == "__main__":
    main()
