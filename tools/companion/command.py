"""What every tool does alike: words, one-line faults, and outputs that are whole or absent."""

import argparse
import os
import sys
import tempfile
from dataclasses import dataclass
from pathlib import Path


class Fault(Exception):
    """What is wrong with an input, as one line for whoever gave it."""


@dataclass
class Output:
    """The bytes that a tool makes, which are none where it has written its files itself, and the status with which it ends."""

    data: bytes | None
    status: int = 0


class Parser(argparse.ArgumentParser):
    """Tells of wrong words in one line, with status 2."""

    def error(self, message):
        self.exit(2, f"{self.prog}: {message}\n")


def parser_of(name, text):
    """A parser whose help is the tool's own text, with the option that every tool has."""
    parser = Parser(prog=name, description=text, formatter_class=argparse.RawDescriptionHelpFormatter)
    parser.add_argument("--version", action="version", version=f"{name} of mathlay {version()}")
    parser.add_argument("-o", "--output", metavar="FILE", help="write FILE, whole or not at all, in place of standard output")
    return parser


def version():
    """The version of all, as the file VERSION tells it."""
    try:
        return (Path(__file__).resolve().parent.parent.parent / "VERSION").read_text().strip()
    except OSError:
        return "of no known version"


def run(parser, work, argv=None):
    """Carries out a tool: `work` makes all bytes of its output from the words. Returns the exit status: 1 at a fault."""
    words = parser.parse_args(argv)
    try:
        made = work(words)
        if not isinstance(made, Output):
            made = Output(made)
        if made.data is not None:
            write(words.output, made.data)
        return made.status
    except Fault as fault:
        warn(parser.prog, fault)
        return 1
    except UnicodeError as fault:
        warn(parser.prog, f"a name or text that can't be written: {fault}")
        return 1


def whole(word):
    """A number from 1 up, as a word."""
    if not word.isascii() or not word.isdigit() or int(word[:9]) < 1:
        raise argparse.ArgumentTypeError(f"{word!r} isn't a number from 1 up")
    return int(word)


def warn(tool, text):
    """Writes one line to standard error."""
    print(f"{tool}: {one_line(text)}", file=sys.stderr)


def one_line(text):
    """The text without line ends, cut after 600 characters."""
    flat = " ".join(str(text).split())
    return flat if len(flat) <= 600 else flat[:597] + "..."


def read(path):
    """The bytes of a file; raises a Fault, which names it."""
    try:
        return Path(path).read_bytes()
    except (OSError, ValueError) as fault:
        raise Fault(f"{path}: {reason(fault)}") from None


def write(path, data):
    """Writes to standard output, or a file by way of another one beside it, so that nobody meets half of it."""
    try:
        if path is None:
            standard(sys.stdout, "output").write(data)
            sys.stdout.buffer.flush()
        elif Path(path).exists() and not Path(path).is_file():
            # a pipe or a device, whose real name may lead nowhere
            Path(path).write_bytes(data)
        else:
            replace(Path(os.path.realpath(path)), data)
    except BrokenPipeError:
        # The exit of the interpreter would write once more, and complain.
        os.dup2(os.open(os.devnull, os.O_WRONLY), sys.stdout.fileno())
        raise Fault("standard output was closed") from None
    except (OSError, ValueError) as fault:
        raise Fault(f"{path or 'standard output'}: {reason(fault)}") from None


def standard(stream, name):
    """The bytes of standard input or output; raises a Fault where it was closed before."""
    if stream is None:
        raise Fault(f"standard {name} is closed")
    return stream.buffer


def replace(path, data):
    """Puts a file with just these bytes in the place of another."""
    handle, beside = tempfile.mkstemp(dir=path.parent, prefix=f".{path.name}.")
    try:
        with os.fdopen(handle, "wb") as file:
            file.write(data)
        os.chmod(beside, 0o666 & ~umask())
        os.replace(beside, path)
    except BaseException:
        os.unlink(beside)
        raise


def umask():
    """The rights that new files lack."""
    mask = os.umask(0)
    os.umask(mask)
    return mask


def reason(fault):
    """Why the system refused."""
    return getattr(fault, "strerror", None) or str(fault)
