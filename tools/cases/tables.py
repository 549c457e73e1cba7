"""`cell`, `columns`, `row_of_cells`, `row_of_slots`, `table_finish`: tables, over boxes."""

from second import tables
from second.padding import cell_box, cell_start

from .boxes import (
    MOST_ITEMS, box_of, boxes_of, is_list, items_of, metrics_of, numbers, size_in, stored_in, stored_of, told)
from .faults import out_of_range, wrong_type
from .values import Fields, is_whole


def cell(known, value):
    """A cell round its row, and where the row begins."""
    fields = Fields(value, "metrics", "row", "size")
    metrics, size = metrics_of(known, fields), size_in(fields)
    box = cell_box(metrics, box_of(fields, "row", wide=True), size)
    return told(numbers(box), numbers([cell_start(size)]))


def columns(_known, value):
    """The widths of columns."""
    fields = Fields(value, "rows")
    rows = [widths_in(item) for item in items_of(fields, "rows")]
    return numbers(tables.columns_of(rows))


def widths_in(item):
    """The widths of a row's cells."""
    if not is_list(item):
        raise wrong_type("rows")
    if len(item) > MOST_ITEMS:
        raise out_of_range("rows")
    return [stored_in("rows", width) for width in item]


def row_of_cells(_known, value):
    """Cells in the middle of their columns."""
    fields = Fields(value, "cells", "widths", "total")
    cells, widths = boxes_of(fields, "cells"), stored_of(fields, "widths")
    if len(widths) != len(cells):
        raise out_of_range("widths")
    total = fields.of_type("total", is_whole)
    row = tables.row_of_cells(cells, widths, total)
    return told(numbers(row.box), numbers(row.offsets))


def row_of_slots(_known, value):
    """Cells in the middle of their slots."""
    fields = Fields(value, "cells", "slots", "total")
    cells, slots = boxes_of(fields, "cells"), stored_of(fields, "slots")
    if len(slots) != 2 * len(cells):
        raise out_of_range("slots")
    row = tables.row_of_slots(cells, slots, fields.of_type("total", is_whole))
    return told(numbers(row.box), numbers(row.offsets))


def table_finish(known, value):
    """Rows one under the other."""
    fields = Fields(value, "metrics", "rows", "widths", "size")
    metrics, size = metrics_of(known, fields), size_in(fields)
    rows, widths = boxes_of(fields, "rows"), stored_of(fields, "widths")
    box = tables.table_box(metrics, rows, widths, size)
    return told(numbers(box), numbers(tables.baselines(metrics, rows, size)))


KINDS = {
    "cell": cell, "columns": columns, "row_of_cells": row_of_cells, "row_of_slots": row_of_slots,
    "table_finish": table_finish,
}
