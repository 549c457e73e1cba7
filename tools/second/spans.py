"""Cells that span columns or rows: which columns they cover, and how wide and how high these become."""

import re
from itertools import accumulate
from typing import NamedTuple

MOST_COLUMNS, MOST_ROWS = 64, 1000
NUMBER = re.compile("[0-9]{1,4}")


class Cell(NamedTuple):
    """A cell of a table: its width, how many columns and rows it spans, and how far it reaches up and down."""

    width: int
    columns: int = 1
    rows: int = 1
    ascent: int = 0
    descent: int = 0

    def spans(self):
        return self.columns > 1 or self.rows > 1


def span_of(text, most):
    """How many columns or rows an attribute asks for, at most so many: 1 where it asks for none."""
    number = int(text) if text is not None and NUMBER.fullmatch(text) else 0
    return min(number, most) if number > 0 else 1


def cell_of(attributes, box):
    """The cell of an element with these attributes and this box."""
    columns, rows = span_of(attributes.get("columnspan"), MOST_COLUMNS), span_of(attributes.get("rowspan"), MOST_ROWS)
    return Cell(box.width, columns, rows, box.ascent, box.descent)


# ---- columns


def first_columns(rows):
    """The first column of each cell, counted from 0, row by row.

    It is the least one behind the cell before it that no cell of a row above covers.
    """
    firsts, last_covered = [], {}  # by column, the last row that a cell above covers
    for number, row in enumerate(rows):
        firsts.append(firsts_of(row, lambda column: last_covered.get(column, -1) >= number))
        for cell, first in zip(row, firsts[-1]):
            for column in range(first, first + cell.columns):
                last_covered[column] = max(last_covered.get(column, -1), number + cell.rows - 1)
    return firsts


def firsts_of(row, is_covered):
    firsts, column = [], 0
    for cell in row:
        while is_covered(column):
            column += 1
        firsts.append(column)
        column += cell.columns
    return firsts


def column_widths(rows, firsts):
    """The widths of all columns: of cells that span one alone the largest; then wider cells make room, in document order."""
    placed = [(first, cell) for row, its in zip(rows, firsts) for cell, first in zip(row, its)]
    count = max((first + cell.columns for first, cell in placed), default=0)
    alone = {}
    for first, cell in placed:
        if cell.columns == 1:
            alone[first] = max(alone.get(first, cell.width), cell.width)
    widths = [alone.get(column, 0) for column in range(count)]
    for first, cell in placed:
        if cell.columns > 1:
            widen(widths, first, cell)
    return widths


def widen(widths, first, cell):
    """Shares what a cell lacks among its columns evenly; what is left over goes to the first ones, a unit each."""
    lack = max(cell.width - sum(widths[first : first + cell.columns]), 0)
    for place in range(cell.columns):
        widths[first + place] += lack // cell.columns + (1 if place < lack % cell.columns else 0)


def slots(row, firsts, widths):
    """The width of a table, and then for each cell of a row where its room begins and how wide that is."""
    starts = [0, *accumulate(widths)]
    rooms = [(starts[first], starts[first + cell.columns] - starts[first]) for cell, first in zip(row, firsts)]
    return [starts[-1], *(number for room in rooms for number in room)]


# ---- rows


def row_height(row):
    """The ascent and the descent of a row by itself: cells that span rows don't count downward."""
    return max((cell.ascent for cell in row), default=0), max((cell.descent for cell in row if cell.rows == 1), default=0)


def row_heights(rows):
    """The ascents and descents of the rows of a table."""
    return deepened(rows, [row_height(row) for row in rows])


def deepened(rows, heights):
    """Ascents and descents, once the last row under each cell over several rows has made room for it, in document order."""
    heights = list(heights)
    for number, row in enumerate(rows):
        for cell in row:
            if cell.rows > 1:
                deepen(heights, number, cell)
    return heights


def deepen(heights, number, cell):
    """Lets the last row that a cell covers grow by what the cell lacks; the covering ends with the table."""
    last = min(number + cell.rows, len(heights)) - 1
    room = heights[number][1] + sum(ascent + descent for ascent, descent in heights[number + 1 : last + 1])
    ascent, descent = heights[last]
    heights[last] = ascent, descent + max(cell.descent - room, 0)
