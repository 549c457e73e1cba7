"""Tables that grow and shrink by keys, and cells that span."""

import re
from dataclasses import dataclass

from editing import erasing
from editing.document import Refusal
from editing.places import Caret, Span
from editing.plan import Plan
from editing.shapes import element, gap, is_empty, is_row, values

SPAN = re.compile(r"(?!0+\Z)[0-9]{1,4}")
NO_TABLE = "That works in a table alone: \\matrix makes one. The formula is as it was."


@dataclass
class Cell:
    """A cell, the row and the column in which it begins, and how many it spans."""

    node: object
    row: int
    column: int
    columns: int
    rows: int

    def covers(self, row, column):
        return self.row <= row < self.row + self.rows and self.column <= column < self.column + self.columns


@dataclass
class Here:
    """A table, its cells, and the one in which the caret stands."""

    table: object
    cells: list
    cell: Cell

    @property
    def width(self):
        return max(cell.column + cell.columns for cell in self.cells)

    def below(self, row):
        """The cells that begin in a row."""
        return [cell for cell in self.cells if cell.row == row]

    def at(self, row, column):
        """The cell that covers a place, or none."""
        return next((cell for cell in self.cells if cell.covers(row, column)), None)

    def index(self, row, column):
        """How many cells of a row begin before a column."""
        return sum(1 for cell in self.below(row) if cell.column < column)


def cell_of(editor):
    """The innermost cell in which the caret stands, with its table, or none."""
    path = editor.map.path(editor.caret.node)
    for place in range(len(path) - 1, 1, -1):
        names = [node.name for node in path[place - 2:place + 1]]
        if names == ["mtable", "mtr", "mtd"]:
            cells = cells_of(path[place - 2])
            return Here(path[place - 2], cells, next(cell for cell in cells if cell.node is path[place]))
    return None


def here(editor):
    found = cell_of(editor)
    if found is None:
        raise Refusal(NO_TABLE)
    return found


def cells_of(table):
    """The cells of a table in their order: each begins at the first column that is free behind the one before it."""
    found, covered = [], set()
    for row, line in enumerate(table.children):
        column = 0
        for node in line.children:
            while (row, column) in covered:
                column += 1
            cell = Cell(node, row, column, span(node, "columnspan", 64), span(node, "rowspan", 1000))
            covered |= {(row + down, column + right) for down in range(1, cell.rows) for right in range(cell.columns)}
            found.append(cell)
            column += cell.columns
    return found


def span(node, name, most):
    text = node.attributes.get(name, "")
    return min(int(text), most) if SPAN.fullmatch(text) else 1


def set_span(plan, cell, name, count):
    plan.attribute(cell.node.id, name, str(count) if count > 1 else None)


def empty_cell(columns=1):
    return element("mtd", gap(), **({"columnspan": str(columns)} if columns > 1 else {}))


def next_cell(editor):
    """Into the next cell of the row; behind the last one a column is added."""
    now = here(editor)
    line = now.table.children[now.cell.row]
    place = next(number for number, node in enumerate(line.children) if node is now.cell.node)
    if place + 1 < len(line.children):
        return editor.go(editor.map.settled(Caret(line.children[place + 1].id, 0)))
    return add_column(editor)


def next_row(editor):
    """Into the row below, where nothing fills it; else a row is added there."""
    now = here(editor)
    below = now.below(now.cell.row + now.cell.rows)
    if below and all(is_empty(cell.node) for cell in below):
        return editor.go(editor.map.settled(Caret(below[0].node.id, 0)))
    return add_row(editor)


def add_row(editor):
    """A row below the caret's. A cell that spans over its place spans one row more."""
    now = here(editor)
    below = now.cell.row + now.cell.rows
    plan, covered = Plan(editor.document.tree), set()
    for cell in now.cells:
        if cell.row < below < cell.row + cell.rows:
            set_span(plan, cell, "rowspan", cell.rows + 1)
            covered |= set(range(cell.column, cell.column + cell.columns))
    made = [empty_cell() for column in range(now.width) if column not in covered]
    plan.insert(now.table.id, min(below, len(now.table.children)), element("mtr", *made))
    editor.make(plan, Caret(plan.id_of(made[0]), 0) if made else editor.caret)


def add_column(editor):
    """A column behind the caret's. A cell that spans over its place spans one column more."""
    now = here(editor)
    behind = now.cell.column + now.cell.columns
    plan, own, widened = Plan(editor.document.tree), None, set()
    for row, line in enumerate(now.table.children):
        left, right = now.at(row, behind - 1), now.at(row, behind)
        if left is not None and left is right:
            if id(left) not in widened:
                widened.add(id(left))
                set_span(plan, left, "columnspan", left.columns + 1)
            continue
        made = empty_cell()
        plan.insert(line.id, now.index(row, behind), made)
        own = made if row == now.cell.row else own
    editor.make(plan, Caret(plan.id_of(own), 0) if own else editor.caret)


def without_row(editor):
    """The table without the caret's row."""
    now = here(editor)
    if len(now.table.children) == 1:
        return without_table(editor, now.table)
    plan, row = Plan(editor.document.tree), now.cell.row
    for cell in now.cells:
        if cell.row < row < cell.row + cell.rows:
            set_span(plan, cell, "rowspan", cell.rows - 1)
    plan.remove(now.table.children[row].id)
    other = now.table.children[row - 1 if row else 1]
    return editor.make(plan, Caret(other.children[0].id if other.children else now.table.children[0].id, 0))


def without_column(editor):
    """The table without the caret's column."""
    now = here(editor)
    if now.width == 1:
        return without_table(editor, now.table)
    plan, column = Plan(editor.document.tree), now.cell.column
    for cell in now.cells:
        if cell.column <= column < cell.column + cell.columns:
            if cell.columns > 1:
                set_span(plan, cell, "columnspan", cell.columns - 1)
            else:
                plan.remove(cell.node.id)
    left = [cell for cell in now.cells if cell.row == now.cell.row and cell.node is not now.cell.node]
    other = left[0] if left else next((cell for cell in now.cells if cell.node is not now.cell.node), now.cell)
    return editor.make(plan, Caret(other.node.id, 0))


def without_table(editor, table):
    """The formula without a table."""
    row = editor.map.parents[table.id]
    place = editor.map.index(table.id)
    if row is not None and is_row(row):
        erasing.erase_span(editor, Span(row.id, place, place + 1))
    else:
        raise Refusal("The table stands alone in its place and can't be taken out. The formula is as it was.")


def grow(editor, name):
    """The caret's cell takes in the cell to the right of it, or the one below."""
    now = here(editor)
    cell = now.cell
    sideways = name == "columnspan"
    row, column = (cell.row, cell.column + cell.columns) if sideways else (cell.row + cell.rows, cell.column)
    other = now.at(row, column)
    fits = other is not None and (other.row, other.column) == (row, column) and (
        other.rows == cell.rows if sideways else other.columns == cell.columns)
    if not fits:
        raise Refusal("There is no cell of that size to take in. The formula is as it was.")
    plan = Plan(editor.document.tree)
    set_span(plan, cell, name, cell.columns + other.columns if sideways else cell.rows + other.rows)
    taken = values(other.node.children)
    for place, value in enumerate(taken):
        if place == 0 and is_empty(cell.node):
            plan.replace(cell.node.children[0].id, value)
        else:
            plan.insert(cell.node.id, (0 if is_empty(cell.node) else len(cell.node.children)) + place, value)
    plan.remove(other.node.id)
    editor.make(plan, editor.caret)


def narrower(editor):
    """The caret's cell spans one column fewer, and an empty cell stands there."""
    now = here(editor)
    cell = now.cell
    if cell.columns == 1:
        raise Refusal("The cell spans one column. The formula is as it was.")
    plan = Plan(editor.document.tree)
    set_span(plan, cell, "columnspan", cell.columns - 1)
    for row in range(cell.row, min(cell.row + cell.rows, len(now.table.children))):
        plan.insert(now.table.children[row].id, now.index(row, cell.column + 1), empty_cell())
    editor.make(plan, editor.caret)


def shorter(editor):
    """The caret's cell spans one row fewer, and an empty cell stands there."""
    now = here(editor)
    cell = now.cell
    if cell.rows == 1:
        raise Refusal("The cell spans one row. The formula is as it was.")
    plan = Plan(editor.document.tree)
    set_span(plan, cell, "rowspan", cell.rows - 1)
    row = cell.row + cell.rows - 1
    if row < len(now.table.children):
        plan.insert(now.table.children[row].id, now.index(row, cell.column), empty_cell(cell.columns))
    editor.make(plan, editor.caret)


def erase(editor, by):
    """Backspace or Delete at an end of a cell: an empty table goes, then an empty row; else the caret goes on."""
    now = here(editor)
    if all(is_empty(each.node) for each in now.cells):
        return without_table(editor, now.table)
    if len(now.table.children) > 1 and all(is_empty(each.node) for each in now.below(now.cell.row)):
        return without_row(editor)
    return editor.go(editor.map.moved(editor.caret, by))


CHANGES = {
    "row": add_row, "column": add_column, "delrow": without_row, "delcolumn": without_column,
    "wider": lambda editor: grow(editor, "columnspan"), "taller": lambda editor: grow(editor, "rowspan"),
    "narrower": narrower, "shorter": shorter,
}
