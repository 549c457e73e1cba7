"""Backspace and Delete."""

from editing import tables
from editing.places import Caret, Span
from editing.plan import Plan
from editing.shapes import TOKENS, gap, is_group, is_row, values


def erase(editor, by):
    """What is selected; or a character or a token before the caret or behind it; what is larger is selected first. At an end
    of a place, what holds the place gives way to what it holds."""
    if editor.span:
        return erase_span(editor, editor.span)
    node, offset = editor.map.nodes[editor.caret.node], editor.caret.offset
    if not is_row(node):
        place = offset - 1 if by < 0 else offset
        return cut(editor, node, place, Caret(node.id, place))
    place = offset - 1 if by < 0 else offset
    if editor.map.is_gap(editor.caret) or not 0 <= place < len(node.children):
        return dissolve(editor, node, by)
    child, parent = node.children[place], editor.map.parents[node.id]
    if is_group(child):
        return ungroup(editor, node, child, len(child.children) - 1 if by < 0 else 0)
    if is_group(node) and is_row(parent) and place in (0, len(node.children) - 1):
        return ungroup(editor, parent, node, place)
    if child.name in ("mn", "mtext", "ms") and len(child.text) > 1:
        at = len(child.text) - 1 if by < 0 else 0
        return cut(editor, child, at, Caret(child.id, at))
    if child.name in TOKENS or child.name == "mspace":
        return erase_span(editor, Span(node.id, place, place + 1))
    editor.anchor, editor.document.caret = Caret(node.id, offset), Caret(node.id, place + (by > 0))
    return None


def ungroup(editor, row, group, place):
    """A sign of a group less, whose other parts then stand in the row that holds it."""
    plan, start = Plan(editor.document.tree), editor.map.index(group.id)
    items = values(group.children[:place] + group.children[place + 1:])
    plan.replace(group.id, items[0])
    for number, item in enumerate(items[1:], 1):
        plan.insert(row.id, start + number, item)
    editor.make(plan, Caret(row.id, start + place))


def cut(editor, node, place, caret):
    """A character less in a token."""
    plan = Plan(editor.document.tree)
    plan.text(node.id, node.text[:place] + node.text[place + 1:])
    editor.make(plan, caret)


def erase_span(editor, span):
    """Children of a row less; a row that would be empty gets a gap."""
    row = editor.map.nodes[span.row]
    chosen = row.children[span.start:span.end]
    plan = Plan(editor.document.tree)
    if len(chosen) == len(row.children):
        plan.replace(chosen[0].id, gap())
        chosen = chosen[1:]
    for child in chosen:
        plan.remove(child.id)
    editor.make(plan, Caret(row.id, span.start))


def dissolve(editor, row, by):
    """At an end of a row: what holds the row gives way to its content. A cell lets the caret go on."""
    path = editor.map.path(row.id)
    if len(path) == 1:
        return None
    if row.name == "mtd":
        return tables.erase(editor, by)
    place = len(path) - 2
    while not is_row(path[place]) and place > 0:
        place -= 1
    parent, whole = path[place], path[place + 1]
    return give_way(editor, parent, whole, row)


def give_way(editor, parent, whole, row):
    """Puts what an element holds in its place; the caret goes where the row began."""
    items, before = [], 0
    for stop in rows_in(whole):
        if stop.id == row.id:
            before = len(items)
        items += values(stop.children if is_row(stop) else [stop])
    plan = Plan(editor.document.tree)
    place = editor.map.index(whole.id)
    if not items:
        if len(parent.children) > 1:
            plan.remove(whole.id)
        else:
            plan.replace(whole.id, gap())
    for number, item in enumerate(items):
        if number == 0:
            plan.replace(whole.id, item)
        else:
            plan.insert(parent.id, place + number, item)
    editor.make(plan, Caret(parent.id, place + before))


def rows_in(whole):
    """The rows of the places in an element, in their order, and tokens that stand for one."""
    if is_row(whole) or whole.name in TOKENS:
        yield whole
        return
    for child in whole.children:
        yield from rows_in(child)
