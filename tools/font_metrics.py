#!/usr/bin/env python3
"""Makes a metrics file of a font with a MATH table.

    font_metrics.py FONT [--fallback FONT].. [--operators FILE] [--measure-parts] [--formula FILE].. [-o FILE]

FONT is an OpenType or TrueType font (of a collection, its first font with a MATH table). Taken over are, in design units:
ascent and descent of a line without its gap (the typographic ones where the font asks for them, else those of "hhea"), the
height of an x, the least connector overlap, all constants, and of each character that mathematics uses the glyph with its
advance, ink, italics correction, accent position, variants, assemblies and corner kerns, in the font's order. Ink is rounded
outward. The file is one of version 2 where the font has corner kerns, and else one of version 1.

A glyph keeps its name where that fits the format; another name is changed, one to one, and the font's first glyph is
called `missing`. Where that is empty, it becomes a box. U+2061 to U+2064, which show nothing, are a glyph `invisible` without
room or ink.

A character that FONT lacks gets another glyph, where there is one: of a character that looks the same in FONT; of the same
character in each --fallback font in turn, scaled to FONT's em; or of one that is alike. tools/stand_ins.txt says which. A
sign that doesn't grow takes the larger forms of one that looks the same and does: in its own font, as a macron those of an
overline, or else in a fallback font, as a surd or a brace those of the other surd or brace. picture.py has to be given the
same fonts. A fallback font needs no MATH table.

With --formula, FILE's formulas are read, and each character that they need and the metrics lack is told, with its element.

With --operators, FILE's `operator` lines are added; tools/operators.txt has the operator dictionary of MathML Core.

The parts of which a tall fence or a long arrow is built have a length that the font states. Where it isn't the length of
their ink, what is built has gaps or is too long: how many there are is told, and --measure-parts writes the length of the ink.

What the format can't hold is left out or cut, and told on standard error in a line for each kind of thing. Needs fontTools:
Debian's package python3-fonttools, and /usr/bin/python3.
"""

import re
import sys
from collections import Counter
from functools import cache

from companion import command, needs
from companion.command import Fault
from companion.constants import CONSTANTS, INVISIBLE, SCALE_DOWNS, is_mathematical
from companion.fonts import EMPTY, open_font, reading
from companion.metrics import (LENGTHS, MOST_BYTES, MOST_GLYPHS, MOST_HEIGHTS, MOST_PARTS, MOST_VARIANTS, SIGNED, Glyph, Metrics,
                               Part, Stretch)
from companion.sources import Shape, Sources, is_combining
from companion.stand_ins import read_stand_ins

USE_TYPO_METRICS = 1 << 7
EXTENDER = 1
# Where a font keeps the kerns of the format's corners.
CORNERS = {"TR": "TopRightMathKern", "TL": "TopLeftMathKern", "BR": "BottomRightMathKern", "BL": "BottomLeftMathKern"}
UPEM = range(16, 16_385)
# How far the ink of a part may differ from its stated length, in thousandths of an em, before it is told.
TOLERANCE = 4
OPERATOR = re.compile(r"operator ([0-9A-Fa-f]{4,6})(?:\+([0-9A-Fa-f]{4,6}))? (prefix|infix|postfix) (Default|[A-M]) (block|inline)")


class Losses(Counter):
    """What was left out or changed, with how often."""

    def cut(self, value, bounds, what):
        """The value, brought within the bounds."""
        least, most = bounds
        if least <= value <= most:
            return value
        self[f"brought within {least} and {most}: {what}"] += 1
        return min(max(value, least), most)

    def lines(self):
        """A line for each kind of thing that happened."""
        return [f"{what} ({count})" if count > 1 else what for what, count in self.items() if count]


def main(argv=None):
    parser = command.parser_of("font_metrics", __doc__)
    parser.add_argument("font", metavar="FONT")
    parser.add_argument("--fallback", metavar="FONT", action="append", default=[], help="a font for what FONT lacks")
    parser.add_argument("--operators", metavar="FILE", help="add FILE's operator lines")
    parser.add_argument("--measure-parts", action="store_true", help="of the parts of assemblies, write how long their ink is")
    parser.add_argument("--formula", metavar="FILE", action="append", default=[],
                        help="tell the characters that FILE's formulas need and the metrics lack")
    return command.run(parser, work, argv)


def work(words):
    """The bytes of the metrics file."""
    operators = read_operators(words.operators) if words.operators else []
    fonts = [open_font(words.font), *(open_font(path, needs_math=False) for path in words.fallback)]
    losses = Losses()
    with reading(words.font):
        metrics = metrics_of(Sources(fonts), losses, words.measure_parts)
        remarks = [f"made by tools/font_metrics.py of {fonts[0].title}", *filter(None, [fonts[0].copyright])]
        for place, font in enumerate(fonts[1:], 1):
            remarks += [f"fallback {place}: {font.title}", *filter(None, [font.copyright])]
    metrics.operators = operators
    data = metrics.text(remarks).encode("ascii")
    if len(data) > MOST_BYTES:
        raise Fault(f"{words.font}: makes {len(data)} bytes of metrics; the format has at most {MOST_BYTES}")
    for line in losses.lines():
        command.warn("font_metrics", f"{words.font}: {line}")
    for path in words.formula:
        for line in needs.lacking_in_file(path, metrics.characters):
            command.warn("font_metrics", line)
    return data


def read_operators(path):
    """The operator lines of a file, whose other lines are blank or begin with `#`; raises a Fault."""
    lines, seen = [], set()
    for number, line in enumerate(command.read(path).decode("latin-1").splitlines(), 1):
        if not line.strip() or line.startswith("#"):
            continue
        found = OPERATOR.fullmatch(" ".join(line.split()))
        codes = [int(code, 16) for code in found.group(1, 2) if code] if found else []
        if not codes or not all(is_scalar(code, len(codes)) for code in codes):
            raise Fault(f"{path}: line {number} isn't an operator line")
        pair = (*codes, found[3])
        if pair in seen:
            raise Fault(f"{path}: line {number} has an operator and form that stood before")
        seen.add(pair)
        lines.append(found[0])
    return lines


def is_scalar(code, count):
    """Whether a code is that of a character, and one that an operator of so many characters may have."""
    return code <= (0x10FFFF if count == 1 else 0xFFFF) and not 0xD800 <= code <= 0xDFFF


def metrics_of(sources, losses, measure_parts=False):
    """All that the format can hold of a font, and of others what fills in for what it lacks."""
    font = sources.first
    if font.upem not in UPEM:
        raise Fault(f"{font.path}: has {font.upem} units an em; the format has from {UPEM[0]} to {UPEM[-1]}")
    if not any(map(is_mathematical, font.characters)):
        raise Fault(f"{font.path}: shows no character that mathematics uses")
    table = read_stand_ins()
    characters = Chooser(sources, table).characters(losses)
    ascent, descent = line_of(font, losses)
    variants = font.math.MathVariants
    metrics = Metrics(
        upem=font.upem, ascent=ascent, descent=descent, xheight=xheight_of(font, losses),
        overlap=losses.cut(variants.MinConnectorOverlap, LENGTHS, "least overlap") if variants else 0,
        constants=constants_of(font, losses))
    stretches = stretches_of(sources, losses, set(characters.values()))
    stretches |= lent(sources, table, characters, stretches, losses)
    measure(sources, stretches, losses, measure_parts)
    used = shapes_used(sources, characters, stretches, losses)
    add_glyphs(metrics, sources, used, losses)
    add_references(metrics, sources, characters, stretches, set(used))
    add_blanks(metrics, table.blanks)
    metrics.kerns = kerns_of(sources, used, losses)
    return metrics


class Chooser:
    """Chooses the glyph that shows a character."""

    def __init__(self, sources, table):
        self.sources, self.table = sources, table
        self.growing = [{glyph for axis, glyph in constructions(font) if axis == "h"} for font in sources.fonts]

    def characters(self, losses):
        """The shape of each character that mathematics uses and that can be shown, by its code; and in `losses` how many are
        shown by another one."""
        codes = {code for font in self.sources.fonts for code in font.characters}
        codes |= set(self.table.same) | set(self.table.poorer)
        found = {}
        for code in sorted(codes):
            if is_mathematical(code) and code not in INVISIBLE and (shape := self.shape(code)):
                found[code] = shape
        lacks = [code for code in found if code not in self.sources.first.characters]
        losses["characters that the font lacks and a fallback font shows"] += sum(found[code].place > 0 for code in lacks)
        return found

    def shape(self, code):
        """What shows a character best, or none."""
        places = range(len(self.sources.fonts))
        for place in places:
            if glyph := self.sources.fonts[place].characters.get(code):
                return Shape(place, glyph)
            if shape := self.best(place, code, self.table.same.get(code, [])):
                return shape
        return next((shape for place in places if (shape := self.best(place, code, self.table.poorer.get(code, [])))), None)

    def best(self, place, code, others):
        """The first of some characters that a font has; one that grows to the sides goes first."""
        font, shapes = self.sources.fonts[place], []
        for other in others:
            if glyph := font.characters.get(other):
                spaced = is_combining(other) and not is_combining(code) and font.bounds(glyph) is not None
                shapes.append(Shape(place, glyph, spaced))
        shapes = [shape for shape in shapes if self.sources.name(shape)]
        growing = [shape for shape in shapes if shape.glyph in self.growing[place]]
        return next(iter(growing + shapes), None)


def line_of(font, losses):
    """Ascent and descent of a line, without its gap."""
    tables = font.font
    if "OS/2" in tables and tables["OS/2"].fsSelection & USE_TYPO_METRICS:
        ascent, descent = tables["OS/2"].sTypoAscender, -tables["OS/2"].sTypoDescender
    else:
        ascent, descent = tables["hhea"].ascent, -tables["hhea"].descent
    return losses.cut(ascent, LENGTHS, "line ascent"), losses.cut(descent, LENGTHS, "line descent")


def xheight_of(font, losses):
    """The height of an x as the font tells it, or else that of its glyph's ink."""
    told = getattr(font.font["OS/2"], "sxHeight", 0) if "OS/2" in font.font else 0
    if told > 0:
        return told
    glyph = font.characters.get(ord("x"))
    ink = font.bounds(glyph) if glyph else None
    if ink is None or ink[3] <= 0:
        losses["the font tells no height of an x: 0 is written"] += 1
        return 0
    return losses.cut(ink[3], LENGTHS, "height of an x")


def constants_of(font, losses):
    """The constants by name, in the format's order."""
    table = font.math.MathConstants
    if table is None:
        losses["the font has no constants"] += 1
        return {}
    values = {name: getattr(table, name, None) for name in CONSTANTS}
    return {name: losses.cut(getattr(value, "Value", value), (0, 200) if name in SCALE_DOWNS else SIGNED, name)
            for name, value in values.items() if value is not None}


@cache
def constructions(font):
    """How the glyphs of a font grow, by axis and glyph, as its table MATH has it."""
    table = font.math and font.math.MathVariants
    if not table:
        return {}
    found = {}
    for axis, coverage, records in (("v", table.VertGlyphCoverage, table.VertGlyphConstruction),
                                    ("h", table.HorizGlyphCoverage, table.HorizGlyphConstruction)):
        found.update({(axis, base): record for base, record in zip(coverage.glyphs if coverage else [], records or [])})
    return found


def stretches_of(sources, losses, bases):
    """How the shapes of characters grow, by axis and shape; the first font's come first, each font's in its order."""
    found = {}
    for place, font in enumerate(sources.fonts):
        for (axis, base), construction in constructions(font).items():
            for spaced in (False, True):
                shape = Shape(place, base, spaced)
                if shape in bases:
                    found[axis, shape] = stretch_of(sources, shape, construction, losses)
    return found


def lent(sources, table, characters, stretches, losses):
    """What lets a sign grow that can't by itself, upward or to the sides: the growth of one that looks the same, in its own font
    or else in another one."""
    found = {}
    for code, shape in characters.items():
        if shape.spaced or sources.ink(shape) is None:
            continue
        for axis in "vh":
            lender = (axis, shape) not in stretches and next(lenders(sources, axis, shape, code, table.same.get(code, ())), None)
            if lender:
                construction = constructions(sources.fonts[lender.place])[axis, lender.glyph]
                found[axis, shape] = stretch_of(sources, lender, construction, losses)
    return found


def lenders(sources, axis, shape, code, others):
    """The shapes that look as a character does and grow along an axis, those of its own font first."""
    own = shape.place
    for place in (own, *(place for place in range(len(sources.fonts)) if place != own)):
        font = sources.fonts[place]
        for other in others if place == own else (code, *others):
            glyph = font.characters.get(other)
            lender = glyph and Shape(place, glyph, is_combining(other) and not is_combining(code))
            if lender and lender != shape and (axis, glyph) in constructions(font) and sources.name(lender):
                yield lender


def stretch_of(sources, base, construction, losses):
    """The variants and the parts of a shape along an axis, as shapes; measures and lengths are in units of the first font."""
    def shape(glyph):
        return Shape(base.place, glyph, base.spaced and sources.name(Shape(base.place, glyph, True)) is not None)

    def length(value):
        return losses.cut(round(sources.scaled(base.place, value)), LENGTHS, "measures and lengths of parts")

    variants = [(shape(record.VariantGlyph), length(record.AdvanceMeasurement))
                for record in construction.MathGlyphVariantRecord or []]
    losses["left out: variants past the 64th of a glyph"] += max(0, len(variants) - MOST_VARIANTS)
    assembly = construction.GlyphAssembly
    parts = [Part(shape(record.glyph), bool(record.PartFlags & EXTENDER), length(record.StartConnectorLength),
                  length(record.EndConnectorLength), length(record.FullAdvance))
             for record in (assembly.PartRecords if assembly else [])]
    if len(parts) > MOST_PARTS:
        losses["left out: assemblies of more than 16 parts"] += 1
        parts = []
    elif parts and assembly.ItalicsCorrection and assembly.ItalicsCorrection.Value:
        losses["left out: italics corrections of assemblies"] += 1
    return Stretch(variants[:MOST_VARIANTS], parts)


def measure(sources, stretches, losses, take):
    """Counts the parts whose stated length isn't that of their ink, and where `take` says so gives them that of their ink."""
    count = wrong = 0
    for (axis, _), stretch in stretches.items():
        for part in stretch.parts:
            ink = sources.ink(part.name)
            length = part.full if ink is None else ink[3] - ink[1] if axis == "v" else ink[2] - ink[0]
            count += 1
            if abs(length - part.full) * 1000 <= TOLERANCE * sources.upem:
                continue
            wrong += 1
            if take:
                adopt(sources, axis, part, length)
    told = f"{wrong} of {count} parts of assemblies"
    if wrong and take:
        losses[f"{told} have a stated length that isn't their ink's: the ink's is written"] += 1
    elif wrong:
        losses[f"{told} have a stated length that isn't their ink's, so what is built may have gaps: --measure-parts writes the "
               "ink's"] += 1


def adopt(sources, axis, part, length):
    """Gives a part the length of its ink, which then begins where the part begins."""
    spaced = Shape(part.name.place, part.name.glyph, True)
    if axis == "h" and sources.name(spaced):
        part.name = spaced
    part.full = length
    part.start, part.end = min(part.start, length), min(part.end, length)


def shapes_used(sources, characters, stretches, losses):
    """The shapes that the metrics have, in the order of the fonts and of their glyphs, but for the empty ones."""
    used = set(characters.values())
    for stretch in stretches.values():
        used.update(shape for shape, _ in stretch.variants)
        used.update(part.name for part in stretch.parts)
    places = {key: number for number, key in enumerate(sources.names)}
    first = Shape(0, next(iter(sources.first.names)))
    ordered = [first, *sorted(used - {first}, key=lambda shape: (places[shape.place, shape.glyph], shape.spaced))]
    room = MOST_GLYPHS - 1
    losses[f"left out: glyphs past the {MOST_GLYPHS:,} that the format holds"] += max(0, len(ordered) - room)
    return ordered[:room]


def add_glyphs(metrics, sources, used, losses):
    """Adds the glyphs under their names in the format, and the empty one."""
    told = [told_of(font) for font in sources.fonts]
    for shape in used:
        italics, accents = told[shape.place]
        name = sources.name(shape)
        _, bottom, _, top = sources.ink(shape) or (0, 0, 0, 0)
        italic = 0 if shape.spaced else round(sources.scaled(shape.place, italics.get(shape.glyph, 0)))
        accent = accents.get(shape.glyph)
        metrics.glyphs[name] = Glyph(
            name, losses.cut(sources.advance(shape), LENGTHS, "advances"), losses.cut(top, SIGNED, "ink ascents"),
            losses.cut(-bottom, SIGNED, "ink descents"), losses.cut(italic, SIGNED, "italics corrections"),
            None if accent is None else losses.cut(sources.accent(shape, accent), SIGNED, "accent positions"))
    metrics.glyphs[EMPTY] = Glyph(EMPTY, 0, 0, 0)


def told_of(font):
    """The italics corrections and the accent positions that a font tells, by its glyphs."""
    info = font.math and font.math.MathGlyphInfo
    return (values_of(info and info.MathItalicsCorrectionInfo, "Coverage", "ItalicsCorrection"),
            values_of(info and info.MathTopAccentAttachment, "TopAccentCoverage", "TopAccentAttachment"))


def add_blanks(metrics, blanks):
    """Adds a glyph without ink for each space that no font has."""
    for code, ems in blanks.items():
        if code not in metrics.characters:
            name = f"blank.{code:04X}"
            metrics.glyphs[name] = Glyph(name, round(ems * metrics.upem), 0, 0)
            metrics.characters[code] = name


def values_of(table, coverage, records):
    """The values of a table of MATH by glyph; none of a table that isn't there."""
    if not table:
        return {}
    return {glyph: record.Value for glyph, record in zip(getattr(table, coverage).glyphs, getattr(table, records))}


def add_references(metrics, sources, characters, stretches, kept):
    """Adds characters, variants and parts, as far as their glyphs are kept."""
    metrics.characters = {code: sources.name(shape) for code, shape in characters.items() if shape in kept}
    metrics.characters.update({code: EMPTY for code in INVISIBLE})
    for (axis, base), stretch in stretches.items():
        if base not in kept:
            continue
        whole = all(part.name in kept for part in stretch.parts)
        metrics.stretches[axis, sources.name(base)] = Stretch(
            [(sources.name(shape), measure) for shape, measure in stretch.variants if shape in kept],
            [Part(sources.name(part.name), part.extender, part.start, part.end, part.full)
             for part in stretch.parts if whole])


def kerns_of(sources, used, losses):
    """The kerns of the corners of shapes, by name and corner; a shape whose ink was moved has none."""
    found = {}
    for shape in used:
        record = None if shape.spaced else kern_records(sources.fonts[shape.place]).get(shape.glyph)
        for corner, part in CORNERS.items():
            kern = getattr(record, part, None)
            if kern and (lengths := kern_of(sources, shape.place, kern, losses)):
                found[sources.name(shape), corner] = lengths
    return found


@cache
def kern_records(font):
    """What a font tells of the corners of its glyphs, by glyph."""
    info = font.math and font.math.MathGlyphInfo and font.math.MathGlyphInfo.MathKernInfo
    return dict(zip(info.MathKernCoverage.glyphs, info.MathKernInfoRecords)) if info else {}


def kern_of(sources, place, kern, losses):
    """Heights and values in units of the first font, or none where the format can't hold them."""
    heights, values = ([losses.cut(round(sources.scaled(place, each.Value)), SIGNED, "corner kerns") for each in records]
                       for records in (kern.CorrectionHeight or [], kern.KernValue or []))
    if len(heights) > MOST_HEIGHTS:
        losses["left out: corner kerns of more than 16 heights"] += 1
    elif len(values) != len(heights) + 1 or any(low >= high for low, high in zip(heights, heights[1:])):
        losses["left out: corner kerns whose heights don't rise"] += 1
    else:
        return heights, values
    return None


if __name__ == "__main__":
    sys.exit(main())
