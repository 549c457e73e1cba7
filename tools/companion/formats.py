"""The tables of docs/FORMATS.md, as data: so what is said of a refusal is what the document says of it."""

import re
from functools import cache
from pathlib import Path

from companion import command

DOCUMENT = Path(__file__).resolve().parent.parent.parent / "docs" / "FORMATS.md"
CELL = re.compile(r"(?<!\\)\|")


@cache
def tables():
    """The tables under each heading, as lists of rows; a row is a dict by the words of the table's head. Raises a Fault."""
    found, heading, chapter, head = {}, "", "", None
    for line in command.read(DOCUMENT).decode().split("\n"):
        if line.startswith("#"):
            level, _, words = line.partition(" ")
            chapter = words if level == "##" else chapter
            heading, head = words if words == chapter else f"{chapter}: {words}", None
        elif line.startswith("|"):
            cells = [plain(cell) for cell in CELL.split(line.strip())[1:-1]]
            if head is None:
                head = cells
                found.setdefault(heading, []).append([])
            elif not set("".join(cells)) <= set("-: "):
                found[heading][-1].append(dict(zip(head, cells)))
        else:
            head = None
    return found


def plain(cell):
    """The text of a cell, without marks of links and with its code in plain letters."""
    text = re.sub(r"\[([^]]*)\]\([^)]*\)", r"\1", cell.strip())
    return text.replace("\\|", "|").replace("`", "")


def table(heading, column):
    """The table under a heading that has a column of this name."""
    return next(rows for rows in tables()[heading] if rows and column in rows[0])


def row(heading, column, value):
    """The row whose cell in a column is this value, or none."""
    return next((row for row in table(heading, column) if row[column] == str(value)), None)


def status(number):
    """What is said of an exit status, or none."""
    return row("How the program ends", "status", number)


def metrics_fault(kind):
    return row("The metrics file: Its faults", "kind", kind)


def metrics_line(word):
    """What the fields are of a metrics line with this first word, or none."""
    return next((row["fields"] for row in table("The metrics file", "line") if word in row["line"].split(", ")), None)


def tree_fault(kind):
    return row("The tree file: Its faults", "kind", kind)


def reply(text):
    """What is said of a script's reply, or none."""
    script = "The script, and the replies to it"
    return row(script, "reply", text) or row(f"{script}: Undo and redo", "reply", text)
