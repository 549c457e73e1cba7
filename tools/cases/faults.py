"""What can be wrong with a line, and with the whole."""


class LineFault(Exception):
    """A line that can't be read or carried out. Its text is the reason that is written."""


class Undetermined(Exception):
    """What comes of a case isn't told by the definitions: it would have to come from the product."""


NOT_TEXT = "it isn't UTF-8"
NO_FORM = "it has no form of a line"
NOT_A_NAME = "a name has letters, digits, '_', '-' and '.'"
NO_FILE_ABOVE = "no file stands above to which it belongs"
NOT_A_RANGE = "numbers are FROM..TO, and FROM isn't above TO"
NO_SUCH_LINES = "the file doesn't have these lines"
NOT_BYTES = "bytes are pairs of hexadecimal digits with a space between"
TOO_LONG = "the file is too long"
UNKNOWN_FILE = "no file has this name"
NOT_LOADED = "the file isn't in data/ or can't be read"
UNKNOWN_KIND = "no kind of case has this name"
NOT_JSON = "no JSON value follows its first word"
WRONG_VALUE = "its value isn't of the right type"
UNKNOWN_KEY = "a key is none of this kind's"
NOT_METRICS = "the file isn't sound metrics"
NOT_AN_ELEMENT = "the value isn't a sound element"


def missing_key(key):
    return LineFault(f"the key '{key}' is missing")


def wrong_type(key):
    return LineFault(f"the key '{key}' has a value of another type")


def out_of_range(key):
    return LineFault(f"the key '{key}' has a value out of its range")
