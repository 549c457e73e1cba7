"""How each kind of element is laid out over the layouts of its children: one function a kind (MathML Core 3)."""

from dataclasses import dataclass

from .boxes import Box
from .facts import facts_of, lead_place
from .fraction import fraction
from .lengths import length_of, resolved
from .limits import LARGE, PLAIN, STRETCHY, with_limits
from .metrics import BOTTOM_LEFT, BOTTOM_RIGHT, INLINE, TOP_LEFT, TOP_RIGHT
from .multiscripts import Pair, multi
from .operators import operator
from .padding import BORDER, cell_box, cell_start, error_box, padded_box, padded_rise, padded_start
from .questions import COLUMNS, SLOTS, base_properties, cells_of_rows, has_moved_limits, kid_axes, pull_of
from .radicals import root_with_index, square_root
from .rows import RowKid, mirrored, mirrored_row, row_of
from .scripts import Corner, Corners, with_sub, with_sub_and_sup, with_sup
from .spaces import space
from .spans import cell_of, column_widths, deepened, first_columns, row_height
from .styles import child_style, font_size
from .tables import baselines, columns_of, row_of_cells, row_of_slots, table_box
from .tokens import Leaf, token, token_glyph
from .words import truth_of

ROOT_ID = 1


@dataclass(frozen=True)
class Layout:
    """An element as it is laid out: its box and the spaces round it, the widths of its cells, what they span where one does, where
    its children in flow begin, its own marks, and the layouts of these children."""

    node: object
    box: Box
    before: int
    after: int
    cells: tuple
    spans: tuple
    offsets: tuple
    marks: tuple
    kids: tuple


class Element:
    """An element in a context, over the layout of each child in flow."""

    def __init__(self, metrics, node, context, kids):
        self.metrics, self.node, self.context, self.kids = metrics, node, context, kids
        self.facts, self.size = facts_of(node), font_size(metrics, context.style)
        self.boxes = [kid.box for kid in kids]
        self.is_rtl = context.style.is_rtl

    def says(self, name):
        return self.node.attributes.get(name)

    def row(self):
        """The children in a row, which shows the spaces of its operators unless it is an operator itself; the root always does."""
        shows_spaces = self.node.id == ROOT_ID or self.facts.core is None
        kids = [RowKid(kid.box, kid.before, kid.after, facts_of(kid.node).core is not None) for kid in self.kids]
        row = row_of(kids, shows_spaces)
        return mirrored_row(row, kids) if self.is_rtl else row

    def has_large_base(self):
        base = base_properties(self.metrics, self.facts, self.context)
        return base is not None and base.largeop

    def corner(self, place, name):
        """A corner of the child in flow at a place, at the child's font size; None of what isn't shown by a single glyph."""
        glyph = token_glyph(self.metrics, self.facts.flow[place])
        if glyph is None:
            return None
        return Corner(glyph, name, font_size(self.metrics, child_style(self.metrics, self.context.style, self.node, place)))

    def sub_corners(self, place=1):
        """Where the subscript at a place meets the base."""
        right, left = (BOTTOM_RIGHT, TOP_LEFT) if not self.is_rtl else (BOTTOM_LEFT, TOP_RIGHT)
        return {"base_sub": self.corner(0, right), "sub": self.corner(place, left)}

    def sup_corners(self, place=1):
        """Where the superscript at a place meets the base."""
        right, left = (TOP_RIGHT, BOTTOM_LEFT) if not self.is_rtl else (TOP_LEFT, BOTTOM_RIGHT)
        return {"base_sup": self.corner(0, right), "sup": self.corner(place, left)}

    def turned(self, x, width, box):
        """Where a part of a width begins in a box: in an element from right to left as seen from the other end."""
        return mirrored(x, width, box.width) if self.is_rtl else x

    def turned_places(self, places, box):
        """The same of the children, by their places."""
        return [(self.turned(x, kid.width, box), y) for (x, y), kid in zip(places, self.boxes)]

    def turned_marks(self, root):
        """The same of the surd of a radical and of its rule, which begins where the surd ends."""
        surd, rule = root.marks
        surd_x, rule_x = self.turned(surd.x, rule.x - surd.x, root.box), self.turned(rule.x, rule.width, root.box)
        return surd._replace(x=surd_x), rule._replace(x=rule_x)

    def outcome(self, box, offsets, marks=(), cells=(), spans=()):
        """An element with this box. Round an embellished one stand the spaces of the child that leads to its core."""
        lead = self.kids[lead_place(self.facts)] if self.facts.core else None
        before, after = (lead.before, lead.after) if lead else (0, 0)
        return Layout(self.node, box, before, after, tuple(cells), tuple(spans), tuple(offsets), tuple(marks), tuple(self.kids))

    def leaf(self, leaf):
        return Layout(self.node, leaf.box, leaf.before, leaf.after, (), (), (), leaf.marks, ())


def outcome_of(metrics, node, context, kids):
    element = Element(metrics, node, context, kids)
    return EQUATIONS.get(element.facts.laid, row_outcome)(element)


# ---- leaves


def token_outcome(element):
    return element.leaf(token(element.metrics, element.node, element.size))


def operator_outcome(element):
    context = element.context
    pull = pull_of(context.stretch)
    core, is_display = element.facts.core, context.style.is_display
    return element.leaf(operator(element.metrics, element.node, core, context.form, is_display, pull, element.size))


def space_outcome(element):
    return element.leaf(Leaf(space(element.metrics, element.node, element.size), ()))


# ---- rows


def along(row, start=0, y=0):
    """The places of the children of a row that begins at a start, with its baseline so far below that of the element."""
    return [(start + x, y) for x in row.offsets]


def row_outcome(element):
    row = element.row()
    return element.outcome(row.box, along(row))


def error_outcome(element):
    row = element.row()
    return element.outcome(error_box(row.box), along(row, BORDER))


def padded_outcome(element):
    row, attributes = element.row(), element.node.attributes
    start = padded_start(element.metrics, attributes, element.size)
    rise = padded_rise(element.metrics, attributes, element.size)
    return element.outcome(padded_box(element.metrics, attributes, row.box, element.size), along(row, start, -rise))


def square_root_outcome(element):
    row = element.row()
    root = square_root(element.metrics, row.box, element.context.style.is_display, element.size)
    start = element.turned(root.base[0], row.box.width, root.box)
    return element.outcome(root.box, along(row, start, root.base[1]), element.turned_marks(root))


def cell_outcome(element):
    row = element.row()
    return element.outcome(cell_box(element.metrics, row.box, element.size), along(row, cell_start(element.size)))


# ---- fractions and roots


def thickness_of(element):
    """The thickness of a fraction's rule, never below 0; a percentage is of the font's own."""
    own = element.metrics.constant("FractionRuleThickness", element.size)
    length = length_of(element.says("linethickness"))
    if length is None:
        return max(0, own)
    return max(0, resolved(length, element.size, element.metrics.ex(element.size), own))


def fraction_outcome(element):
    top, bottom = element.boxes
    is_display = element.context.style.is_display
    made = fraction(element.metrics, top, bottom, thickness_of(element), is_display, element.size)
    return element.outcome(made.box, (made.top, made.bottom), [made.rule] if made.rule else [])


def root_outcome(element):
    base, index = element.boxes
    root = root_with_index(element.metrics, base, index, element.context.style.is_display, element.size)
    return element.outcome(root.box, element.turned_places((root.base, root.index), root.box), element.turned_marks(root))


# ---- scripts and limits


def sub_outcome(element):
    base, sub = element.boxes
    corners = Corners(**element.sub_corners())
    made = with_sub(element.metrics, base, element.has_large_base(), sub, element.size, corners)
    return element.outcome(made.box, element.turned_places(((0, 0), made.sub), made.box))


def sup_outcome(element):
    base, sup = element.boxes
    is_cramped = element.context.style.is_cramped
    corners = Corners(**element.sup_corners())
    made = with_sup(element.metrics, base, element.has_large_base(), is_cramped, sup, element.size, corners)
    return element.outcome(made.box, element.turned_places(((0, 0), made.sup), made.box))


def sub_sup_outcome(element):
    base, sub, sup = element.boxes
    is_cramped = element.context.style.is_cramped
    corners = Corners(**element.sub_corners(), **element.sup_corners(place=2))
    made = with_sub_and_sup(element.metrics, base, element.has_large_base(), is_cramped, sub, sup, element.size, corners)
    return element.outcome(made.box, element.turned_places(((0, 0), made.sub, made.sup), made.box))


def multi_outcome(element):
    """Scripts stand behind the base two and two, the subscript first; from the mark on they are prescripts."""
    base, *scripts = element.boxes
    pairs = [
        Pair(sub, sup, element.facts.prescripts <= 2 * index + 1)
        for index, (sub, sup) in enumerate(zip(scripts[::2], scripts[1::2]))
    ]
    is_cramped = element.context.style.is_cramped
    made = multi(element.metrics, base, element.has_large_base(), is_cramped, pairs, element.size)
    return element.outcome(made.box, element.turned_places((made.base, *made.scripts), made.box))


def limits_of(element, under, over):
    """The limits of an element's base, whose case is told by what the base is."""
    if element.has_large_base():
        case = LARGE
    else:
        case = STRETCHY if kid_axes(element.metrics, element.facts, element.context.form)[0] == INLINE else PLAIN
    accents = (truth_of(element.says(name)) is True for name in ("accent", "accentunder"))
    return with_limits(element.metrics, element.boxes[0], under, over, case, *accents, element.size)


def under_outcome(element):
    if has_moved_limits(element.metrics, element.facts, element.context):
        return sub_outcome(element)
    made = limits_of(element, element.boxes[1], None)
    return element.outcome(made.box, (made.base, made.under))


def over_outcome(element):
    if has_moved_limits(element.metrics, element.facts, element.context):
        return sup_outcome(element)
    made = limits_of(element, None, element.boxes[1])
    return element.outcome(made.box, (made.base, made.over))


def under_over_outcome(element):
    if has_moved_limits(element.metrics, element.facts, element.context):
        return sub_sup_outcome(element)
    made = limits_of(element, element.boxes[1], element.boxes[2])
    return element.outcome(made.box, (made.base, made.under, made.over))


# ---- tables


def table_row_outcome(element):
    """The cells in their columns or slots; without either, each in a column as wide as itself."""
    own, stretch = [box.width for box in element.boxes], element.context.stretch
    if stretch and stretch[0] == SLOTS:
        row = row_of_slots(element.boxes, stretch[2], stretch[1])
    else:
        total, widths = stretch[1:] if stretch and stretch[0] == COLUMNS else (sum(own), own)
        row = row_of_cells(element.boxes, widths, total)
    places = element.turned_places(along(row), row.box)
    spans = spans_of(element)
    if not spans:
        return element.outcome(row.box, places, cells=own)
    ascent, descent = row_height(spans)
    return element.outcome(row.box._replace(ascent=ascent, descent=descent), places, cells=own, spans=spans)


def spans_of(element):
    """What the cells of a row span, where one of them does; else nothing."""
    cells = [cell_of(kid.node.attributes, kid.box) for kid in element.kids]
    return cells if any(cell.spans() for cell in cells) else []


def table_outcome(element):
    metrics, boxes, size = element.metrics, element.boxes, element.size
    widths = columns_of([kid.cells for kid in element.kids])
    if any(kid.spans for kid in element.kids):
        rows = cells_of_rows(element.kids)
        widths = column_widths(rows, first_columns(rows))
        heights = deepened(rows, [(box.ascent, box.descent) for box in boxes])
        boxes = [box._replace(ascent=ascent, descent=descent) for box, (ascent, descent) in zip(boxes, heights)]
    return element.outcome(table_box(metrics, boxes, widths, size), [(0, y) for y in baselines(metrics, boxes, size)])


# Every other kind is laid out as a row.
EQUATIONS = {
    "merror": error_outcome,
    "mfrac": fraction_outcome,
    "mi": token_outcome,
    "mmultiscripts": multi_outcome,
    "mn": token_outcome,
    "mo": operator_outcome,
    "mover": over_outcome,
    "mpadded": padded_outcome,
    "mroot": root_outcome,
    "ms": token_outcome,
    "mspace": space_outcome,
    "msqrt": square_root_outcome,
    "msub": sub_outcome,
    "msubsup": sub_sup_outcome,
    "msup": sup_outcome,
    "mtable": table_outcome,
    "mtd": cell_outcome,
    "mtext": token_outcome,
    "mtr": table_row_outcome,
    "munder": under_outcome,
    "munderover": under_over_outcome,
}
