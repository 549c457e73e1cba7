"""Tables: the widths of columns, cells along a row, and rows one under the other (MathML Core 3.5)."""

from itertools import accumulate

from .boxes import Box, all_joined
from .numbers import halved
from .rows import Row


def columns_of(rows):
    """The widths of columns, from those of the cells of each row: as many columns as the longest row has cells."""
    count = max(map(len, rows), default=0)
    return [max(row[place] for row in rows if place < len(row)) for place in range(count)]


def row_of_cells(cells, widths, total):
    """Cells, each in the middle of its column, in a row as wide as the table; a row has a column for each cell."""
    starts = [0, *accumulate(widths)]
    offsets = [start + halved(width - cell.width) for start, width, cell in zip(starts, widths, cells)]
    return Row(all_joined(cells).of_width(total), offsets)


def row_of_slots(cells, rooms, total):
    """Cells, each in the middle of its slot; of each slot `rooms` has where it begins, and then how wide it is."""
    offsets = [start + halved(width - cell.width) for start, width, cell in zip(rooms[::2], rooms[1::2], cells)]
    return Row(all_joined(cells).of_width(total), offsets)


def table_box(metrics, rows, widths, size):
    """Half of the height of all rows lies above the axis."""
    height, width = height_of(rows), sum(widths)
    ascent = table_ascent(metrics, rows, size)
    return Box(width, ascent, height - ascent, ascent, height - ascent, accent=halved(width))


def baselines(metrics, rows, size):
    """How far the baseline of each row lies below that of the table."""
    ascent = table_ascent(metrics, rows, size)
    tops = [0, *accumulate(row.ascent + row.descent for row in rows)]
    return [top + row.ascent - ascent for top, row in zip(tops, rows)]


def table_ascent(metrics, rows, size):
    return halved(height_of(rows)) + metrics.constant("AxisHeight", size)


def height_of(rows):
    return sum(row.ascent + row.descent for row in rows)
