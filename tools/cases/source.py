"""The lines of a program's stdin: the files that they make known, and the cases."""

import re
from dataclasses import dataclass, field
from pathlib import Path

from .faults import (
    NO_FILE_ABOVE, NO_FORM, NO_SUCH_LINES, NOT_A_NAME, NOT_A_RANGE, NOT_BYTES, NOT_LOADED, NOT_TEXT, TOO_LONG,
    UNKNOWN_FILE, LineFault)

MOST_BYTES = 67_108_864


@dataclass
class Known:
    """The files that are known, by name, and the one that content lines add to."""

    folder: Path
    files: dict[str, bytes] = field(default_factory=dict)
    open_name: str | None = None

    def content(self, name):
        """The bytes of a known file."""
        if name not in self.files:
            raise LineFault(UNKNOWN_FILE)
        return self.files[name]

    def add(self, data):
        """Adds to the file that was begun."""
        if self.open_name is None:
            raise LineFault(NO_FILE_ABOVE)
        if len(self.files[self.open_name]) + len(data) > MOST_BYTES:
            raise LineFault(TOO_LONG)
        self.files[self.open_name] += data


def take_line(known, line):
    """Takes a line into account. A case is answered as its kind and the text of its value; any other line gives None."""
    try:
        text = line.decode("utf-8")
    except UnicodeDecodeError:
        raise LineFault(NOT_TEXT) from None
    if text == "" or text.startswith("#"):
        return None
    if text[0] in CONTENTS:
        known.add(CONTENTS[text[0]](known, text[1:]))
        return None
    word, space, rest = text.partition(" ")
    if space == "":
        raise LineFault(NO_FORM)
    known.open_name = None
    if word == "load":
        load(known, as_name(rest))
    elif word == "file":
        begin(known, as_name(rest))
    else:
        return word, rest
    return None


def as_name(text):
    """A text in the form of a file's name."""
    if not re.fullmatch(r"[A-Za-z0-9_.-]+", text):
        raise LineFault(NOT_A_NAME)
    return text


def begin(known, name):
    """A file of that name begins, empty."""
    known.files[name] = b""
    known.open_name = name


def load(known, name):
    """The file of the folder is known under its name."""
    try:
        known.files[name] = (known.folder / name).read_bytes()
    except OSError:
        raise LineFault(NOT_LOADED) from None


def hex_bytes(_known, text):
    """Bytes that are written as pairs of hexadecimal digits."""
    pairs = text.split()
    if not all(re.fullmatch(r"[0-9A-Fa-f]{2}", pair) for pair in pairs):
        raise LineFault(NOT_BYTES)
    return bytes.fromhex("".join(pairs))


def by_rule(end):
    """What is made of FROM..TO and a text: the text once for each number, with an end behind it."""

    def made(_known, rule):
        span, space, text = rule.partition(" ")
        if space == "":
            raise LineFault(NOT_A_RANGE)
        return b"".join(numbered(text + end, span_of(span)))

    return made


def numbered(text, numbers):
    """A text for each number: `{d}` stands for the number, `{x}` for it in at least four hexadecimal digits."""
    if "{d}" not in text and "{x}" not in text:
        return [text.encode() * len(numbers)]
    return (text.replace("{d}", str(number)).replace("{x}", f"{number:04X}").encode() for number in numbers)


def span_of(text):
    """The numbers from one up to, not including, another."""
    found = re.fullmatch(r"([0-9]+)\.\.([0-9]+)", text)
    if found is None or not int(found[1]) <= int(found[2]) < 2**32:
        raise LineFault(NOT_A_RANGE)
    return range(int(found[1]), int(found[2]))


def included(known, text):
    """A known file, or lines that it has."""
    name, space, span = text.partition(" ")
    as_name(name)
    if space == "":
        return known.content(name)
    numbers = span_of(span)
    lines = lines_of(known.content(name))
    if not 1 <= numbers.start or numbers.stop > len(lines) + 1:
        raise LineFault(NO_SUCH_LINES)
    return b"".join(lines[numbers.start - 1:numbers.stop - 1])


def lines_of(content):
    """The lines of a file with their line feeds; the last may lack it, where it has bytes."""
    lines = [line + b"\n" for line in content.split(b"\n")]
    lines[-1] = lines[-1][:-1]
    return lines if lines[-1] else lines[:-1]


# What a line adds to the file above it, by its first character.
CONTENTS = {
    "|": lambda _known, text: text.encode() + b"\n",
    "+": lambda _known, text: text.encode(),
    "~": hex_bytes,
    "*": by_rule("\n"),
    "&": by_rule(""),
    "<": included,
}
