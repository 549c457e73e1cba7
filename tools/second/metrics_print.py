"""The canonical form of a metrics file."""

from itertools import chain

from .metrics import BLOCK, CONSTANTS, CORNERS, INLINE


def print_metrics(metrics):
    """The bytes of the canonical form: one line each, in one order."""
    return "".join(" ".join(map(str, words)) + "\n" for words in printed_lines(metrics)).encode()


def printed_lines(metrics):
    """All lines in their order, each as a list of words and numbers."""
    yield "mathlay-metrics", metrics.version
    yield "upem", metrics.upem
    yield "line", *metrics.line
    yield "xheight", metrics.x_height
    if metrics.overlap is not None:
        yield "overlap", metrics.overlap
    for name in CONSTANTS:
        if name in metrics.constants:
            yield "const", name, metrics.constants[name]
    for glyph in metrics.glyphs:
        yield "glyph", *(field for field in glyph if field is not None)
    for letter in sorted(metrics.characters):
        yield "char", code(letter), metrics.glyphs[metrics.characters[letter]].name
    for place in range(len(metrics.glyphs)):
        yield from growth_lines(metrics, place)
        yield from kern_lines(metrics, place)
    for line in metrics.operators.values():
        yield "operator", "+".join(map(code, line.text)), line.form, line.category, line.axis


def growth_lines(metrics, place):
    """The lines of which the glyph at a place is the base."""
    base = metrics.glyphs[place].name
    for axis, word in ((BLOCK, "vvariant"), (INLINE, "hvariant")):
        for variant in metrics.variants_of(place, axis):
            yield word, base, metrics.glyphs[variant.glyph].name, variant.measure
    for axis, word in ((BLOCK, "vassembly"), (INLINE, "hassembly")):
        for part in metrics.parts_of(place, axis):
            role = "EXT" if part.is_extender else "FIX"
            yield word, base, metrics.glyphs[part.glyph].name, role, part.start, part.end, part.full


def kern_lines(metrics, place):
    """The lines of the kerns at the corners of the glyph at a place."""
    for corner in CORNERS:
        if (place, corner) in metrics.kerns:
            heights, (first, *others) = metrics.kerns[place, corner]
            yield "kern", metrics.glyphs[place].name, corner, first, *chain(*zip(heights, others))


def code(letter):
    """A code point as 4 upper case hexadecimal digits, or more where it needs them."""
    return f"{letter:04X}"
