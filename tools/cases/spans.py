"""`span_of`, `spans`: cells that span columns and rows."""

from second import spans

from .boxes import MOST_ITEMS, is_list, items_of, numbers, stored_in, told
from .faults import out_of_range, wrong_type
from .values import Fields, is_whole


def span_of(_known, value):
    """How many columns or rows the text of an attribute asks for."""
    fields = Fields(value, "text", "most")
    text = fields.text("text") if fields.has("text") else None
    return str(spans.span_of(text, fields.within("most", 1, spans.MOST_ROWS)))


def spanned(_known, value):
    """Where the cells of a table begin, the widths of columns, the heights of rows, and the slots of each row."""
    rows = rows_in(Fields(value, "rows"))
    firsts = spans.first_columns(rows)
    widths = spans.column_widths(rows, firsts)
    heights = map(numbers, spans.row_heights(rows))
    slots = [numbers(spans.slots(cells, along, widths)) for cells, along in zip(rows, firsts)]
    return told(in_a_list(map(numbers, firsts)), numbers(widths), in_a_list(heights), in_a_list(slots))


def in_a_list(words):
    return ", ".join(words) or "-"


def rows_in(fields):
    """The rows, which have no more cells together than a table may have."""
    rows, left = [], MOST_ITEMS
    for item in items_of(fields, "rows"):
        rows.append(cells_in(item))
        left -= len(rows[-1])
        if left < 0:
            raise out_of_range("rows")
    return rows


def cells_in(item):
    """The cells of a row."""
    if not is_list(item):
        raise wrong_type("rows")
    if len(item) > MOST_ITEMS:
        raise out_of_range("rows")
    return [cell_of(cell) for cell in item]


def cell_of(value):
    """A cell: its width, how many columns and rows it spans, its ascent and its descent."""
    if not is_list(value) or len(value) != 5:
        raise wrong_type("rows")
    width, columns, rows, ascent, descent = value
    return spans.Cell(
        stored_in("rows", width), count_in(columns, spans.MOST_COLUMNS), count_in(rows, spans.MOST_ROWS),
        stored_in("rows", ascent), stored_in("rows", descent))


def count_in(value, most):
    """A number from 1 to the most."""
    if not is_whole(value):
        raise wrong_type("rows")
    if not 1 <= value <= most:
        raise out_of_range("rows")
    return value


KINDS = {"span_of": span_of, "spans": spanned}
