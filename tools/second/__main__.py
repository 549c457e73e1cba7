"""The command line: `python3 tools/second layout METRICS TREE`, and so on as docs/FORMATS.md says."""

import sys
from pathlib import Path

sys.path.insert(0, str(Path(__file__).resolve().parent.parent))

from second.program import run  # noqa: E402


class Files:
    """The files of the system, by their names."""

    def open(self, name):
        return open(name, "rb")


def main():
    words = sys.argv[1:]
    if any("\udc80" <= letter <= "\udcff" for word in words for letter in word):
        words = []  # words that aren't UTF-8 are no command

    def write(content):
        sys.stdout.buffer.write(content)
        sys.stdout.buffer.flush()

    try:
        return run(words, Files(), write)
    except BrokenPipeError:
        return 6


if __name__ == "__main__":
    sys.exit(main())
