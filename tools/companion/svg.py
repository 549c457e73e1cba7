"""Pictures of laid out formulas, in SVG: one unit is 1/1024 px."""

from dataclasses import dataclass, field, replace
from html import escape

from companion.enclosures import enclosure_lines, enclosure_span
from companion.marks import Box, Built, Glyph, Rule, pieces_of
from companion.painted import shared_out

MARGIN = 2048
PX = 1024
EM = 16 * PX
COLOURS = ("#c0392b", "#2471a3", "#1e8449", "#b9770e", "#7d3c98")


@dataclass
class Outlines:
    """The glyphs of fonts by their names in the metrics: ink and outline in design units."""

    sources: object
    drawn: object
    paths: dict = field(default_factory=dict)
    inks: dict = field(default_factory=dict)

    def path(self, name):
        """The outline as an SVG path, which is empty where nothing is drawn; raises a Fault at a name that no font has."""
        if name not in self.paths:
            shape = self.sources.shape(name)
            self.paths[name] = "" if shape is None else self.sources.path(shape)
        return self.paths[name]

    def ink(self, name):
        """Left, bottom, right and top of the ink, or none."""
        if name not in self.inks:
            shape = self.sources.shape(name)
            self.inks[name] = None if shape is None else self.sources.ink(shape)
        return self.inks[name]


@dataclass
class Definitions:
    """The outlines that several pictures share: each glyph once, with an id of its own."""

    outlines: Outlines
    prefix: str
    ids: dict = field(default_factory=dict)

    def id(self, name):
        return self.ids.setdefault(name, f"{self.prefix}{len(self.ids) + 1}")

    def lines(self):
        """The paths, scaled to the font size of 16 px, with y downward."""
        scale = number(EM / self.outlines.drawn.upem)
        return [f'<path id="{it}" transform="scale({scale} -{scale})" d="{self.outlines.path(name)}"/>'
                for name, it in self.ids.items()]


@dataclass
class Frame:
    """What stands round a picture within a page: attributes, its name for those who don't see it, what is kept within, whether it
    is a block of its own, and how the name of a link begins."""

    attributes: str
    label: str
    inside: str
    block: bool
    link: str


@dataclass
class Picture:
    """The marks of one formula, its glyphs single, ready to be written. `drawn` are glyphs and rules with the colour of each,
    which is empty where none is asked for; `looks` says of each element by its id how it is to look."""

    boxes: list
    drawn: list
    looks: dict
    outlines: Outlines
    prefix: str = "g"

    def svg(self, zoom, with_boxes):
        """The whole element `svg`; `zoom` is how many px of the picture show one px."""
        left, top, width, height = self.frame()
        lines = [f'<svg xmlns="http://www.w3.org/2000/svg" viewBox="{left} {top} {width} {height}" '
                 f'width="{number(width * zoom / PX)}" height="{number(height * zoom / PX)}">']
        lines += ["<defs>", *self.definitions(), "</defs>"]
        lines += self.backgrounds()
        lines += [self.use(glyph) for glyph in self.glyphs() if self.outlines.path(glyph[0].name)]
        lines += self.rules()
        lines += self.enclosures("black")
        if with_boxes:
            lines += [line for box in self.boxes for line in box_lines(box)]
        return "\n".join([*lines, "</svg>"]) + "\n"

    def inline(self, definitions, frame):
        """An element `svg` that stands on the baseline of a line of text, and grows with its letters: its unit is the em of the
        text. `definitions` has the outlines."""
        box = self.boxes[0] if self.boxes else Box(1, "math", 0, 0, 0, 0, 0, 0, 0)
        _, top, _, bottom = self.extent()
        height, width = max(bottom - top, 1), max(box.width, 1)
        shown = "display:block;margin:1em auto" if frame.block else f"vertical-align:{ems(-bottom)}"
        head = (f'<svg{frame.attributes} role="img" aria-label="{escape(frame.label)}" viewBox="0 {top} {width} {height}" '
                f'width="{ems(width)}" height="{ems(height)}" fill="currentColor" style="{shown};overflow:visible">')
        uses = [reference(glyph, colour, definitions, frame.link) for glyph, colour in self.glyphs()
                if self.outlines.path(glyph.name)]
        return "".join([head, frame.inside, *self.backgrounds(), *uses, *self.rules(), *self.enclosures("currentColor"), "</svg>"])

    def glyphs(self):
        return [(mark, colour) for mark, colour in self.drawn if isinstance(mark, Glyph)]

    def definitions(self):
        """Each glyph once, in design units with y upward."""
        names = dict.fromkeys(glyph.name for glyph, _ in self.glyphs())
        return [f'<path id="{self.prefix}-{name}" d="{path}"/>' for name in names if (path := self.outlines.path(name))]

    def use(self, mark):
        glyph, colour = mark
        scale = number(glyph.size / self.outlines.drawn.upem)
        return (f'<use href="#{self.prefix}-{glyph.name}" transform="translate({glyph.x} {glyph.y}) scale({scale} -{scale})"'
                f"{fill(colour)}/>")

    def rules(self):
        return [f'<rect class="rule" x="{rule.x}" y="{rule.y}" width="{rule.width}" height="{rule.height}"{fill(colour)}/>'
                for rule, colour in self.drawn if isinstance(rule, Rule) and rule.width > 0 and rule.height > 0]

    def backgrounds(self):
        """A rectangle behind each box that asks for one."""
        lines = []
        for box in self.boxes:
            look = self.looks.get(box.id)
            if look and look.background:
                left, top, right, bottom = box_span(box)
                lines.append(f'<rect class="background" x="{left}" y="{top}" width="{max(right - left, 0)}" '
                             f'height="{max(bottom - top, 0)}" fill="{escape(look.background)}"/>')
        return lines

    def enclosures(self, usual):
        """The lines round and through what an `menclose` encloses."""
        return [line for box in self.enclosed()
                for line in enclosure_lines(box, self.looks[box.id].notation, self.looks[box.id].colour or usual)]

    def enclosed(self):
        return [box for box in self.boxes if box.id in self.looks and self.looks[box.id].notation]

    def extent(self):
        """Left, top, right and bottom of all ink and colour; nothing at all counts as a point on the baseline."""
        spans = [rule_span(rule) for rule, _ in self.drawn if isinstance(rule, Rule)]
        spans += filter(None, (self.glyph_span(glyph) for glyph, _ in self.glyphs()))
        spans += [enclosure_span(box) for box in self.enclosed()]
        spans += [box_span(box) for box in self.boxes if box.id in self.looks and self.looks[box.id].background]
        lefts, tops, rights, bottoms = zip(*spans) if spans else ((0,), (0,), (0,), (0,))
        return min(lefts), min(tops), max(rights), max(bottoms)

    def frame(self):
        """Left, top, width and height of what holds the formula's box and all ink, with a margin."""
        spans = [*map(box_span, self.boxes[:1]), self.extent()]
        lefts, tops, rights, bottoms = zip(*spans)
        left, top = min(lefts) - MARGIN, min(tops) - MARGIN
        return left, top, max(rights) + MARGIN - left, max(bottoms) + MARGIN - top

    def glyph_span(self, glyph):
        ink = self.outlines.ink(glyph.name)
        if ink is None:
            return None
        left, bottom, right, top = (self.outlines.drawn.scale(value, glyph.size) for value in ink)
        return glyph.x + left, glyph.y - top, glyph.x + right, glyph.y - bottom


def fill(colour):
    return f' fill="{escape(colour)}"' if colour else ""


def reference(glyph, colour, definitions, prefix):
    """A glyph of the outlines that several pictures share."""
    it = definitions.id(glyph.name)
    if glyph.size == EM:
        return f'<use {prefix}href="#{it}" x="{glyph.x}" y="{glyph.y}"{fill(colour)}/>'
    return (f'<use {prefix}href="#{it}" transform="translate({glyph.x} {glyph.y}) scale({number(glyph.size / EM)})"'
            f"{fill(colour)}/>")


def box_span(box):
    return box.x, box.y - box.ascent, box.x + box.width, box.y + box.descent


def rule_span(rule):
    return rule.x, rule.y, rule.x + rule.width, rule.y + rule.height


def picture_of(marks, outlines, prefix="g", looks=None, painted=None):
    """The picture of what the program wrote for one formula: of what it painted, where that is given, else of its marks as they
    are read here. A mark is its element's, whose box stands before it."""
    boxes, drawn, colour, looks = [], [], "", looks or {}
    if painted is None:
        pieces = iter([pieces_of(mark, outlines.drawn) if isinstance(mark, Built) else [mark] for mark in inked(marks)])
    else:
        pieces = iter([pieces for _, pieces in shared_out(inked(marks), painted, outlines.drawn)])
    for mark in marks:
        if isinstance(mark, Box):
            boxes.append(mark)
            colour = looks[mark.id].colour if mark.id in looks else ""
        else:
            drawn += [(piece, colour) for piece in next(pieces)]
    return Picture(boxes, drawn, looks, outlines, prefix)


def inked(marks):
    return [mark for mark in marks if not isinstance(mark, Box)]


def renumbered(marks, first):
    """The marks with the ids that a tree of their own would have: the topmost element keeps 1, and `first` becomes 2."""
    return [replace(mark, id=mark.id - first + 2) if isinstance(mark, Box) and mark.id != 1 else mark for mark in marks]


def box_lines(box):
    """The frame, the baseline and the id of a box."""
    colour = COLOURS[box.id % len(COLOURS)]
    left, top, right, bottom = box_span(box)
    lines = [f'<g fill="none" stroke="{colour}" stroke-width="96"><title>{box.id} {escape(box.name)}</title>']
    if right >= left and bottom >= top:
        lines.append(f'<rect class="box" x="{left}" y="{top}" width="{right - left}" height="{bottom - top}"/>')
    lines.append(f'<path stroke-dasharray="256" d="M{left} {box.y}H{right}"/>')
    lines.append(f'<text x="{left + 128}" y="{top + 2560}" font-family="sans-serif" font-size="2560" stroke="none" '
                 f'fill="{colour}">{box.id}</text></g>')
    return lines


def page(figures):
    """An HTML page of pictures, each with its caption."""
    lines = ["<!DOCTYPE html>", '<html lang="en">', '<meta charset="utf-8">', "<title>Formulas</title>",
             "<style>body { font-family: sans-serif; margin: 2em } figure { margin: 2em 0 } figcaption { color: #666 }</style>"]
    for caption, svg in figures:
        lines += ["<figure>", svg.rstrip("\n"), f"<figcaption>{escape(caption)}</figcaption>", "</figure>"]
    return "\n".join([*lines, "</html>"]) + "\n"


def number(value):
    """A decimal of at most six places."""
    return f"{value:.6f}".rstrip("0").rstrip(".")


def ems(value):
    """A length in units as ems of the text in which it stands."""
    return f"{number(value / EM)}em"
