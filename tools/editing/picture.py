"""What the page shows: the marks as SVG, and the formula as MathML to copy."""

import threading
from html import escape

from companion.marks import Box, Built, Glyph, pieces_of
from editing.shapes import is_gap

# How the ids of outlines begin in the page; no other id of the page has a point.
PREFIX = "glyph."
# How far what is shown reaches past the formula's box, in units, so that the caret and ink that sticks out are seen.
ROOM = 2048
FONTS = threading.Lock()


def paints(marks, drawn):
    """The glyphs and rules of a page, each as a line of SVG, the pieces of assemblies each by itself: what `mathlay paint`
    writes."""
    lines, names = [], set()
    for mark in marks:
        if isinstance(mark, Box):
            continue
        for piece in pieces_of(mark, drawn) if isinstance(mark, Built) else [mark]:
            if isinstance(piece, Glyph):
                names.add(piece.name)
                lines.append(f'<use href="#{PREFIX}{piece.name}" transform="translate({piece.x} {piece.y}) scale({piece.size})"/>')
            elif piece.width > 0 and piece.height > 0:
                lines.append(f'<rect x="{piece.x}" y="{piece.y}" width="{piece.width}" height="{piece.height}"/>')
    return lines, names


def outline(studio, name, prefix=""):
    """The outline of a glyph, one em of which is one unit, with y downward. Fonts are read by one thread at a time."""
    with FONTS:
        path = studio.outlines.path(name)
    scale = f"{1 / studio.drawn.upem:.9f}"
    return f'<path id="{prefix}{name}" transform="scale({scale} -{scale})" d="{path}"/>'


def frame(box):
    """Left, top, width and height of what is shown."""
    top = min(box.y - box.ascent, -12_288)
    bottom = max(box.y + box.descent, 4096)
    return box.x - ROOM, top - ROOM, max(box.width, 8192) + 2 * ROOM, bottom - top + 2 * ROOM


def with_outlines(painted, studio):
    """The SVG that `mathlay paint` wrote, with the outlines of its glyphs; raises a Fault."""
    head, _, rest = painted.partition("\n")
    names = dict.fromkeys(part.split('"', 1)[0] for part in painted.split('href="#')[1:])
    paths = [outline(studio, name) for name in names]
    return "\n".join([head, "<defs>", *paths, "</defs>", rest])


def mathml(node, level=0):
    """The MathML of an element, without its gaps."""
    space = "  " * level
    attributes = "".join(f' {name}="{escape(value)}"' for name, value in sorted(node.attributes.items()))
    if level == 0:
        attributes = ' xmlns="http://www.w3.org/1998/Math/MathML"' + attributes
    children = [child for child in node.children if not is_gap(child)]
    if node.text:
        return f"{space}<{node.name}{attributes}>{escape(node.text, quote=False)}</{node.name}>\n"
    if not children:
        return f"{space}<{node.name}{attributes}/>\n" if node.name == "mspace" else f"{space}<{node.name}{attributes}></{node.name}>\n"
    inside = "".join(mathml(child, level + 1) for child in children)
    return f"{space}<{node.name}{attributes}>\n{inside}{space}</{node.name}>\n"
