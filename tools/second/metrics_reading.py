"""Reading a metrics file: its lines and words, and the first fault."""

import re

from .metrics import BLOCK, CONSTANTS, CORNERS, INLINE, SCALE_DOWNS, Glyph, Kern, Metrics, OperatorLine, Part, Variant

MOST_BYTES = 8388608
MOST_GLYPHS, MOST_VARIANTS, MOST_PARTS, MOST_HEIGHTS = 65535, 64, 16, 16

# The kinds of faults of a line.
FOREIGN_BYTE, WRONG_FIRST_LINE, UNKNOWN_WORD, FIELD_COUNT, NOT_A_NUMBER, OUT_OF_RANGE, WRONG_WORD, NOT_NAMED, REPEATED, TOO_MANY = range(1, 11)
# What a file may end without, in the order in which it is looked for.
NO_UPEM, NO_LINE, NO_X_HEIGHT, NO_MISSING = range(11, 15)
FALLING_HEIGHTS = 15  # of a line too; it is looked for after all others

NUMBER = re.compile(rb"-?[0-9]{1,6}")
CODE = re.compile(rb"[0-9A-Fa-f]{4,6}")
GLYPH_NAME = re.compile(rb"[A-Za-z0-9_.-]{1,63}")
FOREIGN = re.compile(rb"[^\t -~]")
FORMS = ("prefix", "infix", "postfix")
CATEGORIES = ("Default", *"ABCDEFGHIJKLM")


class LineFault(Exception):
    """The fault of a line, by the number of its kind."""

    def __init__(self, kind):
        super().__init__(kind)
        self.kind = kind


class MetricsFault(Exception):
    """The first fault of a file: the line's number, counted from 1, and the kind."""

    def __init__(self, line, kind):
        super().__init__(line, kind)
        self.line, self.kind = line, kind


def read_metrics(content):
    """The metrics of a file's bytes."""
    metrics = Metrics()
    lines = lines_of(content)
    for number, line in enumerate(lines, 1):
        try:
            take_line(metrics, line) if number > 1 else take_first_line(metrics, line)
        except LineFault as fault:
            raise MetricsFault(number, fault.kind) from None
    lacking = what_lacks(metrics)
    if lacking:
        raise MetricsFault(len(lines) + 1, lacking)
    return metrics


def lines_of(content):
    """The lines of a file, without line feeds and the carriage returns just before them. No bytes are one empty line."""
    pieces = content.split(b"\n")
    last = pieces.pop()
    lines = [piece[:-1] if piece.endswith(b"\r") else piece for piece in pieces]
    return lines + [last] if last or not lines else lines


def words_of(line):
    """The words of a line, which spaces and tabs part."""
    return [word for word in re.split(rb"[ \t]", line) if word]


def take_first_line(metrics, line):
    """The first line tells the version. It is never a comment: one that begins with `#` has the wrong words."""
    if not line.startswith(b"#") and FOREIGN.search(line):
        raise LineFault(FOREIGN_BYTE)
    words = words_of(line)
    if words not in ([b"mathlay-metrics", b"1"], [b"mathlay-metrics", b"2"]):
        raise LineFault(WRONG_FIRST_LINE)
    metrics.version = int(words[1])


def take_line(metrics, line):
    if line.startswith(b"#"):
        return
    if FOREIGN.search(line):
        raise LineFault(FOREIGN_BYTE)
    words = words_of(line)
    if words:
        reader = READERS[metrics.version].get(words[0])
        if reader is None:
            raise LineFault(UNKNOWN_WORD)
        reader(metrics, words[1:])


def what_lacks(metrics):
    """The kind of the first thing that a file ended without, or None."""
    needed = (metrics.upem, NO_UPEM), (metrics.line, NO_LINE), (metrics.x_height, NO_X_HEIGHT)
    for given, kind in (*needed, (metrics.places.get("missing"), NO_MISSING)):
        if given is None:
            return kind
    return None


# ---- fields


def counted(fields, *counts):
    if len(fields) not in counts:
        raise LineFault(FIELD_COUNT)
    return fields


def number(word, least, most):
    if not NUMBER.fullmatch(word):
        raise LineFault(NOT_A_NUMBER)
    if not least <= int(word) <= most:
        raise LineFault(OUT_OF_RANGE)
    return int(word)


def length(word):
    return number(word, 0, 65535)


def reach(word):
    return number(word, -32768, 65535)


def code_number(word):
    if not CODE.fullmatch(word):
        raise LineFault(NOT_A_NUMBER)
    return int(word, 16)


def scalar(code, most):
    """A Unicode scalar value, which is no surrogate."""
    if 0xD800 <= code <= 0xDFFF or code > most:
        raise LineFault(OUT_OF_RANGE)
    return code


def letter(word):
    return scalar(code_number(word), 0x10FFFF)


def operator_text(word):
    """One character, or two of at most U+FFFF; both have to be codes before either is looked at for its range."""
    codes = word.split(b"+")
    if len(codes) == 1:
        return (letter(word),)
    if len(codes) != 2:
        raise LineFault(NOT_A_NUMBER)
    return tuple(scalar(code, 0xFFFF) for code in [code_number(each) for each in codes])


def glyph_name(word):
    if not GLYPH_NAME.fullmatch(word):
        raise LineFault(WRONG_WORD)
    return word.decode()


def choice(word, choices):
    if word.decode() not in choices:
        raise LineFault(WRONG_WORD)
    return word.decode()


def named(metrics, word):
    """The place of a glyph that a line before has named."""
    place = metrics.places.get(glyph_name(word))
    if place is None:
        raise LineFault(NOT_NAMED)
    return place


# ---- the kinds of lines


def put_once(metrics, name, value):
    if getattr(metrics, name) is not None:
        raise LineFault(REPEATED)
    setattr(metrics, name, value)


def put_new(table, key, value):
    if key in table:
        raise LineFault(REPEATED)
    table[key] = value


def put_entry(table, key, most, entry):
    if len(table.get(key, ())) >= most:
        raise LineFault(TOO_MANY)
    table.setdefault(key, []).append(entry)


def read_upem(metrics, fields):
    (units,) = counted(fields, 1)
    put_once(metrics, "upem", number(units, 16, 16384))


def read_line(metrics, fields):
    ascent, descent = counted(fields, 2)
    put_once(metrics, "line", (length(ascent), length(descent)))


def read_x_height(metrics, fields):
    (height,) = counted(fields, 1)
    put_once(metrics, "x_height", length(height))


def read_overlap(metrics, fields):
    (least,) = counted(fields, 1)
    put_once(metrics, "overlap", length(least))


def read_constant(metrics, fields):
    word, value = counted(fields, 2)
    name = word.decode()
    if name not in CONSTANTS:
        raise LineFault(NOT_NAMED)
    put_new(metrics.constants, name, number(value, 0, 200) if name in SCALE_DOWNS else reach(value))


def read_glyph(metrics, fields):
    name, advance, ink_ascent, ink_descent, *more = counted(fields, 4, 5, 6)
    glyph = Glyph(glyph_name(name), length(advance), reach(ink_ascent), reach(ink_descent), *map(reach, more), *(0, None)[len(more) :])
    if glyph.name in metrics.places:
        raise LineFault(REPEATED)
    if len(metrics.glyphs) >= MOST_GLYPHS:
        raise LineFault(TOO_MANY)
    metrics.places[glyph.name] = len(metrics.glyphs)
    metrics.glyphs.append(glyph)


def read_character(metrics, fields):
    code, name = counted(fields, 2)
    put_new(metrics.characters, letter(code), named(metrics, name))


def read_variant(axis):
    def read(metrics, fields):
        base, variant, measure = counted(fields, 3)
        key = axis, named(metrics, base)
        put_entry(metrics.variants, key, MOST_VARIANTS, Variant(named(metrics, variant), length(measure)))

    return read


def read_part(axis):
    def read(metrics, fields):
        base, name, role, start, end, full = counted(fields, 6)
        key = axis, named(metrics, base)
        glyph, is_extender = named(metrics, name), choice(role, ("FIX", "EXT")) == "EXT"
        put_entry(metrics.parts, key, MOST_PARTS, Part(glyph, is_extender, length(start), length(end), length(full)))

    return read


def read_operator(metrics, fields):
    text, form, category, axis = counted(fields, 4)
    line = OperatorLine(operator_text(text), choice(form, FORMS), choice(category, CATEGORIES), choice(axis, (BLOCK, INLINE)))
    put_new(metrics.operators, (line.text, line.form), line)
    metrics.axes.setdefault(line.text, line.axis)


def read_kern(metrics, fields):
    name, corner, first, *pairs = counted(fields, *range(3, 3 + 2 * MOST_HEIGHTS + 1, 2))
    key = named(metrics, name), choice(corner, CORNERS)
    numbers = [reach(word) for word in (first, *pairs)]
    heights, values = numbers[1::2], numbers[::2]
    if key in metrics.kerns:
        raise LineFault(REPEATED)
    if any(height >= above for height, above in zip(heights, heights[1:])):
        raise LineFault(FALLING_HEIGHTS)
    metrics.kerns[key] = Kern(tuple(heights), tuple(values))


FIRST_READERS = {
    b"upem": read_upem,
    b"line": read_line,
    b"xheight": read_x_height,
    b"overlap": read_overlap,
    b"const": read_constant,
    b"glyph": read_glyph,
    b"char": read_character,
    b"vvariant": read_variant(BLOCK),
    b"hvariant": read_variant(INLINE),
    b"vassembly": read_part(BLOCK),
    b"hassembly": read_part(INLINE),
    b"operator": read_operator,
}

# By version.
READERS = {1: FIRST_READERS, 2: {**FIRST_READERS, b"kern": read_kern}}
