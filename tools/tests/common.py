"""What the tests share: tools run within this process, and a small font with a MATH table."""

import io
import tempfile
import unittest
from contextlib import redirect_stderr, redirect_stdout
from pathlib import Path

from companion import fonts
from companion.constants import CONSTANTS, SCALE_DOWNS

needs_font_tools = unittest.skipUnless(fonts.TTFont, fonts.NO_FONT_TOOLS)
TOP = Path(__file__).resolve().parent.parent.parent


class InFolder(unittest.TestCase):
    """A test with a folder of its own."""

    def setUp(self):
        room = tempfile.TemporaryDirectory()
        self.addCleanup(room.cleanup)
        self.folder = Path(room.name)

    def file(self, name, data):
        """Writes a file and returns its path as a text."""
        path = self.folder / name
        path.write_bytes(data if isinstance(data, bytes) else data.encode())
        return str(path)

    def assert_refused(self, outcome, told):
        """A fault: status 1, nothing written, and one line, which tells this."""
        status, written, errors = outcome
        self.assertEqual((status, written), (1, b""), errors)
        self.assertEqual(errors.count("\n"), 1, errors)
        self.assertIn(told, errors)


def run(tool, *words):
    """Runs a tool's `main`: its status, the bytes on standard output, and the text on standard error."""
    out, errors = io.TextIOWrapper(io.BytesIO()), io.StringIO()
    with redirect_stdout(out), redirect_stderr(errors):
        try:
            status = tool.main([str(word) for word in words])
        except SystemExit as ending:
            status = ending.code
    out.flush()
    return status, out.buffer.getvalue(), errors.getvalue()


def make_font(path, glyphs, characters, variants=None, parts=None, upem=1024, typo=False, math=True, italics=None,
              accents=None, kerns=None, named=True):
    """Writes a font. Of each glyph there are its advance and its ink as left, bottom, right and top, or a curve, or none; of
    each axis `v` and `h` and base glyph the variants as (name, measure), and the parts as (name, extender, start, end, full); of each glyph with
    kerns heights and values by corner."""
    from fontTools.fontBuilder import FontBuilder
    builder = FontBuilder(upem, isTTF=True)
    builder.setupGlyphOrder(list(glyphs))
    builder.setupCharacterMap(characters)
    builder.setupGlyf({name: outline(ink) for name, (_, ink) in glyphs.items()})
    builder.setupHorizontalMetrics({name: (advance, ink[0] if ink else 0) for name, (advance, ink) in glyphs.items()})
    builder.setupHorizontalHeader(ascent=900, descent=-300)
    builder.setupOS2(sTypoAscender=800, sTypoDescender=-200, sTypoLineGap=90, sxHeight=512, fsSelection=0x80 if typo else 0)
    builder.setupNameTable({"fullName": "Test Math", "version": "Version 7", "copyright": "Nobody's"})
    builder.setupPost(keepGlyphNames=named)
    if math:
        builder.font["MATH"] = math_table(builder.font, variants or {}, parts or {}, italics or {}, accents or {}, kerns or {})
    builder.save(path)


class Arcs:
    """Two arcs from a place on the baseline to another and back: each reaches half as far as the point that bends it."""

    def __init__(self, left, right, above, below):
        self.left, self.right, self.above, self.below = left, right, above, below

    def __getitem__(self, place):
        return (self.left, -self.below, self.right, self.above)[place]

    def draw(self, pen):
        middle = (self.left + self.right) // 2
        pen.moveTo((self.left, 0))
        pen.qCurveTo((middle, self.above), (self.right, 0))
        pen.qCurveTo((middle, -self.below), (self.left, 0))
        pen.closePath()


def outline(ink):
    """A glyph that is a filled rectangle, or two arcs, or empty."""
    from fontTools.pens.ttGlyphPen import TTGlyphPen
    pen = TTGlyphPen(None)
    if isinstance(ink, Arcs):
        ink.draw(pen)
    elif ink:
        left, bottom, right, top = ink
        pen.moveTo((left, bottom))
        for point in ((left, top), (right, top), (right, bottom)):
            pen.lineTo(point)
        pen.closePath()
    return pen.glyph()


def math_table(font, variants, parts, italics, accents, kerns):
    """A table MATH whose Nth constant is 10 N, but for percents of 70."""
    from fontTools.otlLib.builder import buildCoverage
    from fontTools.ttLib import newTable
    from fontTools.ttLib.tables import otTables as ot
    glyphs = font.getReverseGlyphMap()

    def made(kind, **fields):
        table = getattr(ot, kind)()
        for name, value in fields.items():
            setattr(table, name, value)
        return table

    def value(number):
        return made("MathValueRecord", Value=number)

    def is_plain(name):
        return name in SCALE_DOWNS or name.endswith("MinHeight") or name == "RadicalDegreeBottomRaisePercent"

    numbers = {name: 70 if name in SCALE_DOWNS else 10 * place for place, name in enumerate(CONSTANTS, 1)}
    constants = made("MathConstants", **{name: number if is_plain(name) else value(number) for name, number in numbers.items()})

    def constructions(axis):
        bases = sorted({base for at, base in [*variants, *parts] if at == axis}, key=glyphs.get)
        return (buildCoverage(bases, glyphs) if bases else None), [construction(axis, base) for base in bases]

    def construction(axis, base):
        records = [made("MathGlyphVariantRecord", VariantGlyph=name, AdvanceMeasurement=measure)
                   for name, measure in variants.get((axis, base), [])]
        pieces = [made("GlyphPartRecord", glyph=name, PartFlags=int(extender), StartConnectorLength=start,
                       EndConnectorLength=end, FullAdvance=full) for name, extender, start, end, full in parts.get((axis, base), [])]
        assembly = made("GlyphAssembly", ItalicsCorrection=value(0), PartRecords=pieces, PartCount=len(pieces)) if pieces else None
        return made("MathGlyphConstruction", GlyphAssembly=assembly, MathGlyphVariantRecord=records, VariantCount=len(records))

    def kern(heights, values):
        return made("MathKern", HeightCount=len(heights), CorrectionHeight=list(map(value, heights)), KernValue=list(map(value, values)))

    vertical, vertical_constructions = constructions("v")
    sideways, sideways_constructions = constructions("h")
    info = made("MathGlyphInfo", ExtendedShapeCoverage=None, MathKernInfo=None, MathTopAccentAttachment=None,
                MathItalicsCorrectionInfo=None)
    if italics:
        info.MathItalicsCorrectionInfo = made(
            "MathItalicsCorrectionInfo", Coverage=buildCoverage(list(italics), glyphs),
            ItalicsCorrection=[value(number) for number in italics.values()], ItalicsCorrectionCount=len(italics))
    if accents:
        info.MathTopAccentAttachment = made(
            "MathTopAccentAttachment", TopAccentCoverage=buildCoverage(list(accents), glyphs),
            TopAccentAttachment=[value(number) for number in accents.values()], TopAccentAttachmentCount=len(accents))
    if kerns:
        records = [made("MathKernInfoRecord", **{f"{corner}MathKern": kern(*corners[corner]) if corner in corners else None for corner
                                                 in ("TopRight", "TopLeft", "BottomRight", "BottomLeft")})
                   for corners in kerns.values()]
        info.MathKernInfo = made("MathKernInfo", MathKernCoverage=buildCoverage(list(kerns), glyphs),
                                 MathKernInfoRecords=records, MathKernCount=len(records))
    table = newTable("MATH")
    table.table = made(
        "MATH", Version=0x00010000, MathConstants=constants, MathGlyphInfo=info,
        MathVariants=made("MathVariants", MinConnectorOverlap=50, VertGlyphCoverage=vertical, HorizGlyphCoverage=sideways,
                          VertGlyphCount=len(vertical_constructions), HorizGlyphCount=len(sideways_constructions),
                          VertGlyphConstruction=vertical_constructions, HorizGlyphConstruction=sideways_constructions))
    return table
