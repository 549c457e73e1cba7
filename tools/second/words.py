"""Words and white space: the tests of short texts that attributes, trees and scripts share."""

import re

WHITE_SPACE = " \t\n\f\r"  # U+0009, U+000A, U+000C, U+000D and U+0020, and no other character
NAME = re.compile(r"[A-Za-z][A-Za-z0-9._:-]{0,63}")


def is_word(text, word):
    """Whether a text is a word, in any case of ASCII letters alone."""
    return text.encode().lower() == word.encode().lower()


def truth_of(text):
    """The truth value that an attribute writes, or None: any other text counts as absent."""
    if text is None:
        return None
    return True if is_word(text, "true") else False if is_word(text, "false") else None


def is_white_space(text):
    """Whether a text has nothing but white space, or nothing at all."""
    return not text.strip(WHITE_SPACE)


def is_name(text):
    """Whether a text has the form of the name of an element or an attribute."""
    return NAME.fullmatch(text) is not None


def byte_length(text):
    """How many bytes a text has in UTF-8."""
    return len(text.encode())
