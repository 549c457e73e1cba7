"""JSON as the program reads it (RFC 8259, with limits of its own) and as it prints it.

A value is None, a bool, an int, a float, a str, a list or a dict. An int stands for a number from -2^63 to 2^64 - 1 that is
written with digits alone; every other number is a float.
"""

import json
import re

MOST_NESTED = 127  # arrays and objects, one in the other
STRINGS = re.compile(r'"(?:[^"\\]|\\.)*"?', re.DOTALL)
LEAST_WHOLE, LARGEST_WHOLE = -(2**63), 2**64 - 1


class NotJson(Exception):
    """Bytes that have no reading as a JSON text in UTF-8."""


def read_json(content):
    """The value of a text's bytes. Of repeated keys the last one counts."""
    try:
        text = content.decode("utf-8")
        if nesting_of(text) > MOST_NESTED:
            raise NotJson
        value = json.loads(text, parse_int=read_whole, parse_float=read_float, parse_constant=refuse)
        if "\\u" in text:
            refuse_lone_surrogates(value)
        return value
    except ValueError:
        raise NotJson from None


def nesting_of(text):
    """How many arrays and objects stand in one another at most; brackets in strings don't count."""
    depth = deepest = 0
    for bracket in re.findall(r"[\[\]{}]", STRINGS.sub("", text)):
        depth += 1 if bracket in "[{" else -1
        deepest = max(deepest, depth)
    return deepest


def read_whole(digits):
    """A number without fraction and exponent; -0 is a float."""
    if digits == "-0" or len(digits) > 20 or not LEAST_WHOLE <= int(digits) <= LARGEST_WHOLE:
        return read_float(digits)
    return int(digits)


def read_float(digits):
    """A number that isn't too large for a float of 64 bits."""
    number = float(digits)
    if number in (float("inf"), float("-inf")):
        raise ValueError(digits)
    return number


def refuse(word):
    """`NaN` and `Infinity` are no JSON."""
    raise ValueError(word)


def refuse_lone_surrogates(value):
    """An escape has to stand for a character, or two of them for one."""
    waiting = [value]
    while waiting:
        each = waiting.pop()
        if isinstance(each, str):
            each.encode()
        elif isinstance(each, list):
            waiting += each
        elif isinstance(each, dict):
            waiting += [*each, *each.values()]


def print_json(value):
    """The text of a value without any space. Only `"`, `\\` and what lies below U+0020 are escaped."""
    return json.dumps(value, ensure_ascii=False, separators=(",", ":"))
