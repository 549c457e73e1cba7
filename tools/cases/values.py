"""The JSON values of cases, and what is asked of their members."""

import json

from second.json_text import NotJson, read_json

from .faults import NOT_JSON, UNKNOWN_KEY, WRONG_VALUE, LineFault, missing_key, out_of_range, wrong_type


def value_of(text):
    """The value of a JSON text, by the program's rules: which texts have a reading, and that the last of repeated keys
    counts."""
    try:
        read_json(text.encode())
    except NotJson:
        raise LineFault(NOT_JSON) from None
    return json.loads(text)


class Fields:
    """The members of a case's value, which are looked at one by one."""

    def __init__(self, value, *keys):
        if not isinstance(value, dict):
            raise LineFault(WRONG_VALUE)
        if not value.keys() <= set(keys):
            raise LineFault(UNKNOWN_KEY)
        self.members = value

    def has(self, key):
        return key in self.members

    def value(self, key):
        if key not in self.members:
            raise missing_key(key)
        return self.members[key]

    def of_type(self, key, is_type):
        value = self.value(key)
        if not is_type(value):
            raise wrong_type(key)
        return value

    def text(self, key):
        return self.of_type(key, is_text)

    def flag(self, key, absent=None):
        return absent if absent is not None and not self.has(key) else self.of_type(key, is_truth)

    def count(self, key):
        return self.of_type(key, is_count)

    def within(self, key, low, high):
        number = self.of_type(key, is_whole)
        if not low <= number <= high:
            raise out_of_range(key)
        return number

    def choice(self, key, words):
        word = self.text(key)
        if word not in words:
            raise out_of_range(key)
        return word

    def items(self, key, is_item, absent=None):
        """The items of a list, each of its type."""
        if absent is not None and not self.has(key):
            return absent
        items = self.of_type(key, lambda value: isinstance(value, list))
        if not all(is_item(item) for item in items):
            raise wrong_type(key)
        return items


def is_text(value):
    return isinstance(value, str)


def is_truth(value):
    return isinstance(value, bool)


def is_whole(value):
    return isinstance(value, int) and not isinstance(value, bool) and -2**63 <= value < 2**63


def is_count(value):
    return isinstance(value, int) and not isinstance(value, bool) and 0 <= value < 2**64
