"""A name behind a backslash: while it is typed, and what it makes."""

from editing import scripts, symbols, tables
from editing.document import Refusal
from editing.places import Caret
from editing.shapes import element, gap, slot, token, values


def press(editor, key):
    """A key while a name is typed; tells whether that is all that it does."""
    if len(key) == 1 and (key.isascii() and key.isalpha()):
        editor.name += key
    elif key == "Backspace":
        editor.name = editor.name[:-1] if editor.name else None
    elif key == "Escape":
        editor.name = None
    elif editor.name == "" and len(key) == 1 and key != " ":
        editor.name = None
        editor.put([token("mo", key)])
    elif len(key) == 1 or key in ("Enter", "Tab"):
        commit(editor)
        return key in (" ", "Enter", "Tab")
    else:
        editor.name = None
        return False
    return True


def commit(editor):
    """What the typed name stands for."""
    name, editor.name = editor.name, None
    if name in symbols.LETTERS:
        editor.put([token("mi", symbols.LETTERS[name])])
    elif name in symbols.OPERATORS:
        editor.put([token("mo", symbols.OPERATORS[name])])
    elif name in symbols.FUNCTIONS:
        editor.put([token("mi", symbols.FUNCTIONS[name])])
    elif name in symbols.LIMITS:
        editor.put([token("mo", name, movablelimits="true", form="prefix")])
    elif name in symbols.ACCENTS:
        accent(editor, symbols.ACCENTS[name])
    elif name in symbols.STRUCTURES:
        structure(editor, name)
    else:
        raise Refusal(f"There is no name \\{name}. The formula is as it was." if name else
                      "A name is to stand behind the backslash. The formula is as it was.")


def accent(editor, sign):
    """An accent on what stands before the caret."""
    def make(items):
        body = slot(*items)
        return element("mover", body, token("mo", sign), accent="true"), body
    row, start, end = editor.before(is_one=True)
    if start == end:
        return editor.wrap((row, start, end), make)
    made, _ = make(values(editor.map.nodes[row].children[start:end]))
    editor.document.caret, editor.anchor = Caret(row, end), Caret(row, start)
    return editor.put([made])


def structure(editor, name):
    """What has places to be filled, or a change of a table."""
    if name in tables.CHANGES:
        return tables.CHANGES[name](editor)
    if name == "frac":
        return scripts.fraction(editor)
    chosen = editor.map.nodes[editor.span.row].children[editor.span.start:editor.span.end] if editor.span else []
    made, inside = MAKERS[name](values(chosen))
    return editor.put(made, inside)


def square_root(items):
    made = element("msqrt", *(items or [gap()]))
    return [made], made


def root(items):
    body, index = slot(*items), slot()
    return [element("mroot", body, index)], index


def over(items):
    body, above = slot(*items), slot()
    return [element("mover", body, above)], above if items else body


def under(items):
    body, below = slot(*items), slot()
    return [element("munder", body, below)], below if items else body


def cells(items):
    """A table of two rows and two columns."""
    made = [element("mtd", *(items if place == 0 and items else [gap()])) for place in range(4)]
    return element("mtable", element("mtr", *made[:2]), element("mtr", *made[2:])), made[1 if items else 0]


def matrix(items):
    table, first = cells(items)
    return [table], first


def fenced(items):
    table, first = cells(items)
    return [element("mrow", token("mo", "("), table, token("mo", ")"))], first


def cases(items):
    table, first = cells(items)
    return [element("mrow", token("mo", "{"), table)], first


MAKERS = {"sqrt": square_root, "root": root, "over": over, "under": under, "matrix": matrix, "pmatrix": fenced, "cases": cases}
