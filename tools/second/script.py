"""The lines of a script, and the command that each stands for."""

from .edits import Insert, Remove, Replace, SetAttribute, SetText
from .json_text import LARGEST_WHOLE, NotJson, read_json
from .tree_reading import TreeFault, part_of

LONGEST_LINE = 1048576  # bytes without the line feed
MOST_LINES = 65536

SHOW = "show"


class NoCommand(Exception):
    """A line stands for no command."""


class ScriptTooLong(Exception):
    """A script has a line that is too long, or one line too many."""


def lines_of(stream):
    """The lines of a script, read one by one: the pieces between line feeds, and a last piece where it has bytes."""
    for _ in range(MOST_LINES):
        line = stream.readline(LONGEST_LINE + 1)
        if not line:
            return
        if len(line) > LONGEST_LINE and not line.endswith(b"\n"):
            raise ScriptTooLong
        yield line.removesuffix(b"\n")
    if stream.read(1):
        raise ScriptTooLong


def is_blank(line):
    """A line of white space alone gets no reply."""
    return not line.strip(b" \t\n\f\r")


def command_in(line):
    """SHOW, or the edit that a line asks for."""
    try:
        value = read_json(line)
    except NotJson:
        raise NoCommand from None
    require(isinstance(value, dict))
    op = value.get("op")
    require(isinstance(op, str) and op in COMMANDS)
    keys, read = COMMANDS[op]
    require(set(value) <= {"op", *keys})
    return read(value)


def sole_op(line):
    """The text of the key `op` of an object without other keys; None of every other line."""
    try:
        value = read_json(line)
    except NotJson:
        return None
    is_alone = isinstance(value, dict) and set(value) == {"op"} and isinstance(value["op"], str)
    return value["op"] if is_alone else None


def require(is_so):
    if not is_so:
        raise NoCommand


def whole_number(value, key):
    number = value.get(key)
    require(type(number) is int and 0 <= number <= LARGEST_WHOLE)
    return number


def text(value, key):
    require(isinstance(value.get(key), str))
    return value[key]


def text_or_none(value, key):
    """A text, or None where the key is absent or null."""
    return None if value.get(key) is None else text(value, key)


def element(value):
    """An element that is to stand in a tree."""
    require("element" in value)
    try:
        return part_of(value["element"])
    except TreeFault:
        raise NoCommand from None


COMMANDS = {
    "show": ((), lambda value: SHOW),
    "text": (("node", "text"), lambda value: SetText(whole_number(value, "node"), text(value, "text"))),
    "attr": (
        ("node", "name", "value"),
        lambda value: SetAttribute(whole_number(value, "node"), text(value, "name"), text_or_none(value, "value")),
    ),
    "insert": (
        ("node", "index", "element"),
        lambda value: Insert(whole_number(value, "node"), whole_number(value, "index"), element(value)),
    ),
    "remove": (("node",), lambda value: Remove(whole_number(value, "node"))),
    "replace": (("node", "element"), lambda value: Replace(whole_number(value, "node"), element(value))),
}
