"""Which glyph, or which assembly of glyphs, is taken to reach a target (MathML Core 5.3)."""

from typing import NamedTuple

from .boxes import Box
from .glyphs import BuiltMark, GlyphMark, glyph_box, glyph_reach
from .metrics import BLOCK
from .numbers import halved


class Shaped(NamedTuple):
    """What a base glyph is made into: a glyph by its place, or an assembly; and its box."""

    box: Box
    glyph: int
    axis: str | None = None  # of an assembly, else None
    count: int = 0
    overlap: int = 0

    def mark(self, x, y, size):
        if self.axis is None:
            return GlyphMark(x, y, size, self.glyph)
        return BuiltMark(x, y, size, self.axis, self.glyph, self.count, self.overlap)


def shaped(metrics, place, axis, target, size):
    """The base glyph where it reaches the target, else the first variant that does, else an assembly or the last variant."""
    if target <= glyph_reach(metrics, place, axis, size):
        return single(metrics, place, size)
    variants = metrics.variants_of(place, axis)
    reaching = first_reaching(metrics, variants, target, size)
    if reaching is not None:
        return single(metrics, reaching, size)
    parts = metrics.parts_of(place, axis)
    sums = Sums.of(metrics, parts, size)
    if sums.grows():
        return assembled(metrics, place, parts, sums, axis, target, size)
    return largest_glyph(metrics, place, variants, size)


def display_variant(metrics, place, size):
    """Of a large operator in display style: the first variant upward that is high enough, else the largest glyph."""
    variants = metrics.variants_of(place, BLOCK)
    reaching = first_reaching(metrics, variants, metrics.constant("DisplayOperatorMinHeight", size), size)
    return largest_glyph(metrics, place, variants, size) if reaching is None else single(metrics, reaching, size)


def single(metrics, place, size):
    return Shaped(glyph_box(metrics, place, size), place)


def first_reaching(metrics, variants, target, size):
    """The glyph of the first variant, in the order of the file, whose measure reaches a target, or None."""
    return next((variant.glyph for variant in variants if target <= metrics.scaled(variant.measure, size)), None)


def largest_glyph(metrics, place, variants, size):
    """The last of the variants, or the base glyph without any."""
    return single(metrics, variants[-1].glyph if variants else place, size)


# ---- assemblies


class Sums(NamedTuple):
    """Of the parts of an assembly at a font size, each length rounded by itself; the overlap is the font's least."""

    fixed_length: int
    fixed_count: int
    extender_length: int
    extender_count: int
    overlap: int

    @classmethod
    def of(cls, metrics, parts, size):
        fixed = [metrics.scaled(part.full, size) for part in parts if not part.is_extender]
        extenders = [metrics.scaled(part.full, size) for part in parts if part.is_extender]
        return cls(sum(fixed), len(fixed), sum(extenders), len(extenders), metrics.scaled(metrics.overlap or 0, size))

    def growth(self):
        """How much longer an assembly is with one more of each extender."""
        return self.extender_length - self.overlap * self.extender_count

    def grows(self):
        """Whether an assembly is valid."""
        return self.extender_count > 0 and self.growth() > 0

    def pieces(self, count):
        """How many pieces stand in a row where each extender is repeated so often."""
        return self.fixed_count + count * self.extender_count

    def length(self, count, overlap):
        """How long they are, where each overlaps the one before it so far."""
        return self.fixed_length + count * self.extender_length - overlap * max(self.pieces(count) - 1, 0)

    def least_count(self, target):
        """The least count that makes a piece at all and reaches a target with the least overlap."""
        first = 0 if self.fixed_count > 0 else 1
        lack = target - self.length(first, self.overlap)
        return first + max(0, -(-lack // self.growth()))

    def greatest_overlap(self, target, count, widest):
        """The greatest overlap up to the widest one that reaches a target, and no less than the least overlap."""
        joints = self.pieces(count) - 1
        if widest is None or widest <= self.overlap:
            return self.overlap
        return max(self.overlap, min(widest, (self.length(count, 0) - target) // joints))


def assembled(metrics, place, parts, sums, axis, target, size):
    """An assembly with the least count, and then the greatest overlap, that reach a target."""
    count = sums.least_count(target)
    overlap = sums.greatest_overlap(target, count, widest_overlap(metrics, parts, count, size))
    box = assembly_box(metrics, parts, axis, sums.length(count, overlap), size)
    return Shaped(box, place, axis, count, overlap)


def widest_overlap(metrics, parts, count, size):
    """The widest overlap that all joints allow, or None where there is no joint.

    A joint allows the lesser of the connector at the end of its first piece and the one at the start of its second. Between more
    than two repeats of a part there are no other joints than between two.
    """
    row = [part for part in parts for _ in range(min(count, 2) if part.is_extender else 1)]
    joints = [min(metrics.scaled(one.end, size), metrics.scaled(next_one.start, size)) for one, next_one in zip(row, row[1:])]
    return min(joints, default=None)


def assembly_box(metrics, parts, axis, length, size):
    """The box of all listed parts: upward as high as it is long, and to the sides as wide as it is long."""
    boxes = [glyph_box(metrics, part.glyph, size) for part in parts]
    if axis == BLOCK:
        width = max(box.width for box in boxes)
        return Box(width=width, ascent=length, ink_ascent=length, accent=halved(width))
    ink_ascent, ink_descent = max(box.ink_ascent for box in boxes), max(box.ink_descent for box in boxes)
    return Box(length, ink_ascent, ink_descent, ink_ascent, ink_descent, accent=halved(length))
