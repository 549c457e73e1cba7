"""Sentences for what the program writes where it refuses: the file, the line, what is wrong, and what would be right. The words
come from the tables of docs/FORMATS.md."""

import json
import os
import re

from companion import command, formats
from companion.command import Fault
from companion.jsons import places_of

METRICS = re.compile(r"metrics (\d+) (\d+)")
TREE = re.compile(r"tree (\d+) (\d+)")
NODE = re.compile(r"node (\d+)")
RIGHT = "what would be right"


def ending(status, written, errors, inputs):
    """A sentence for a run that ended with a status other than 0."""
    last = written.strip().split("\n")[-1]
    row = formats.status(status)
    if status < 0:
        return f"{inputs.formula}: the program was ended by signal {-status}{of_errors(errors)}"
    if row is None:
        return (f"{inputs.formula}: the program ended with status {status}, which is none of mathlay's: is it mathlay?"
                f"{of_errors(errors or last)}")
    if status in (3, 4, 8, 10, 11) and (told := refusal(last, inputs)):
        return f"{told} (the program wrote `{last}`)"
    if status == 5:
        return missing(inputs) or f"{inputs.formula}: {row['what it says']}; right would be {row[RIGHT]}"
    name = (inputs.script or inputs.formula) if status == 9 else inputs.formula
    return f"{name}: {row['what it says']} (status {status}); right would be {row[RIGHT]}"


def of_errors(text):
    return f": {command.one_line(text)}" if text.strip() else ""


def missing(inputs):
    """The first file of a run that isn't there or can't be read, or none."""
    for what, path in (("metrics", inputs.metrics), ("tree", inputs.tree), ("script", inputs.script)):
        if path is None:
            continue
        if not os.path.exists(path):
            return f"{path}: the {what} file isn't there"
        if os.path.isdir(path):
            return f"{path}: is a folder, and the {what} file has to be a file"
        if not os.access(path, os.R_OK):
            return f"{path}: the {what} file may not be read"
    return None


def refusal(text, inputs):
    """A sentence for the line of a refusal, or none where it isn't one."""
    if found := METRICS.fullmatch(text):
        return of_metrics(int(found[1]), int(found[2]), inputs.metrics)
    if found := TREE.fullmatch(text):
        return of_tree(int(found[1]), int(found[2]), inputs)
    if found := NODE.fullmatch(text):
        return f"{inputs.formula or 'the tree'}: no element in flow has the id {found[1]}; right would be {formats.status(10)[RIGHT]}"
    if text == "paint many":
        row = formats.status(11)
        return f"{inputs.formula or 'the tree'}: {row['what it says']}; right would be {row[RIGHT]}"
    simple = {"metrics long": (3, inputs.metrics), "tree long": (4, inputs.formula), "range": (8, inputs.formula)}
    if text in simple:
        status, name = simple[text]
        row = formats.status(status)
        told = row["what it says"] if text == "range" else "is too long"
        return f"{name or 'the file'}: {told}; right would be {row[RIGHT]}"
    if text == "tree json":
        return not_json(inputs.formula)
    if text.startswith("refused ") and (row := formats.reply(text)):
        return f"{text}: {row['when']}; right would be {row[RIGHT]}"
    return None


def of_metrics(line, kind, path):
    """A sentence for a fault of a metrics file."""
    row = formats.metrics_fault(kind)
    if row is None:
        raise Fault(f"metrics {line} {kind}: there is no fault of metrics with the number {kind}")
    text = lines_of(path, line)
    told = f"{path or 'the metrics file'}, line {line}: {row['fault']}"
    if text is not None and kind not in range(11, 15):
        told += f": `{shown(text)}`"
        fields = formats.metrics_line(text.split()[0]) if text.split() else None
        if fields and kind in (4, 5, 6, 7, 8):
            return f"{told}; right would be {row[RIGHT]}: {text.split()[0]} has {fields}"
    return f"{told}; right would be {row[RIGHT]}"


def lines_of(path, line):
    """A line of a file, or none where it can't be had."""
    try:
        lines = command.read(path).split(b"\n") if path else []
    except Fault:
        return None
    return lines[line - 1].decode("latin-1").removesuffix("\r") if 0 < line <= len(lines) else None


def shown(text):
    """A line as it is told: cut where it is long, and without what isn't to be seen."""
    flat = "".join(letter if letter.isprintable() else "?" for letter in text)
    return flat if len(flat) <= 80 else flat[:77] + "..."


def of_tree(element, kind, inputs):
    """A sentence for a fault of a tree."""
    row = formats.tree_fault(kind)
    if row is None:
        raise Fault(f"tree {element} {kind}: there is no fault of trees with the number {kind}")
    if inputs.place:
        where = f"{inputs.place(element)}: element {element}"
    else:
        where = f"{inputs.tree or 'the tree file'}: element {element}{place_in_json(inputs.tree, element)}"
    return f"{where}: {row['fault']}; right would be {row[RIGHT]}"


def place_in_json(path, element):
    """Where an element of a tree file begins, and its name, as words that follow its number; nothing where it isn't known."""
    try:
        text = command.read(path).decode() if path else ""
    except (Fault, UnicodeError):
        return ""
    found = places_of(text, element)
    if found is None:
        return ""
    begin, name = found
    line, column = text.count("\n", 0, begin) + 1, begin - (text.rfind("\n", 0, begin) + 1) + 1
    named = f" <{name}>" if isinstance(name, str) else ""
    return f"{named} at line {line}, column {column}"


def not_json(path):
    """A sentence for a file that isn't JSON, with the place where it stops to be."""
    try:
        json.loads(command.read(path).decode())
    except Fault as fault:
        return str(fault)
    except UnicodeError as fault:
        return f"{path}: isn't UTF-8: byte {getattr(fault, 'start', 0) + 1}; right would be JSON in UTF-8"
    except RecursionError:
        return f"{path}: arrays and objects stand more than 127 deep in one another; right would be at most 60 levels of elements"
    except ValueError as fault:
        line, column = getattr(fault, "lineno", 1), getattr(fault, "colno", 1)
        return (f"{path}:{line}:{column}: isn't JSON: {getattr(fault, 'msg', fault)}; right would be one object, such as "
                '{"name":"math"}')
    return f"{path}: arrays and objects stand more than 127 deep in one another, or a number is none that JSON has"
