"""`glyph`: what metrics say of a character's glyph, in design units."""

from .answers import metrics_in
from .faults import out_of_range
from .values import Fields


def glyph(known, value):
    """A character's glyph, its larger glyphs and the parts of its assembly."""
    fields = Fields(value, "metrics", "letter")
    letter = fields.text("letter")
    if len(letter) != 1:
        raise out_of_range("letter")
    fields.text("metrics")
    metrics = metrics_in(known, fields)
    place = metrics.place_of(ord(letter))
    own = metrics.glyphs[place]
    numbers = [own.advance, own.ink_ascent, own.ink_descent, own.italic, "none" if own.accent is None else own.accent]
    members = [" ".join(map(str, [own.name, *numbers]))]
    for axis in ("block", "inline"):
        for variant in metrics.variants_of(place, axis):
            members.append(f"{axis} {metrics.glyphs[variant.glyph].name} {variant.measure}")
        for part in metrics.parts_of(place, axis):
            role = "EXT" if part.is_extender else "FIX"
            members.append(f"{axis} {metrics.glyphs[part.glyph].name} {role} {part.start} {part.end} {part.full}")
    return "; ".join(members)


KINDS = {"glyph": glyph}
