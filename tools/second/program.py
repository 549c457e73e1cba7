"""The program: its words, and the table of endings of docs/FORMATS.md.

Inputs have one method: `open(name)` gives a binary stream, or raises OSError. What is written goes to a function of bytes.
"""

from .generator import generated, seed_and_count
from .history import History, depth_of
from .json_text import NotJson, read_json
from .layout import OutOfRange
from .metrics_print import print_metrics
from .metrics_reading import MOST_BYTES as LONGEST_METRICS
from .metrics_reading import MetricsFault, read_metrics
from .painting import TooMany, svg_of
from .pointing import NoNode, coordinates_of, hit, ids_of, selection
from .script import ScriptTooLong, lines_of
from .session import Session
from .tree_print import print_tree
from .tree_reading import TreeFault, tree_of

USAGE_LINE = "usage: mathlay " + " | ".join(
    [
        "layout METRICS TREE",
        "edit METRICS TREE SCRIPT",
        "check METRICS TREE",
        "gen METRICS SEED COUNT",
        "paint METRICS TREE",
        "hit METRICS TREE X Y",
        "select METRICS TREE ID ID",
        "history DEPTH METRICS TREE SCRIPT",
    ]
)
LONGEST_TREE = 4194304

DONE, USAGE, METRICS, TREE, READ_FAULT, RANGE, SCRIPT_LIMIT, NO_NODE, PAINT = 0, 2, 3, 4, 5, 8, 9, 10, 11


class Ending(Exception):
    """A run ends with a status, and with a line or without."""

    def __init__(self, status, line=None):
        super().__init__(status, line)
        self.status, self.line = status, line


def run(words, inputs, write):
    """Does what the words ask for, and gives the status."""
    try:
        command_of(words)(inputs, write, *words[1:])
        return DONE
    except OutOfRange:
        write(b"range\n")
        return RANGE
    except Ending as ending:
        if ending.line is not None:
            write(ending.line.encode() + b"\n")
        return ending.status


def command_of(words):
    """The function of a command, where the words after it are as many as it takes and have their forms."""
    command, is_sound = COMMANDS.get((words[0], len(words)), (None, None)) if words else (None, None)
    if command is None or not is_sound(*words[1:]):
        raise Ending(USAGE, USAGE_LINE)
    return command


def layout(inputs, write, metrics_name, tree_name):
    metrics = metrics_in(inputs, metrics_name)
    write(Session(metrics, tree_in(inputs, tree_name)).page())


def check(inputs, write, metrics_name, tree_name):
    metrics = metrics_in(inputs, metrics_name)
    tree = tree_in(inputs, tree_name)
    write(print_metrics(metrics) + print_tree(tree).encode() + b"\n")


def edit(inputs, write, metrics_name, tree_name, script_name):
    metrics = metrics_in(inputs, metrics_name)
    answer_lines(inputs, write, Session(metrics, tree_in(inputs, tree_name)), script_name)


def history(inputs, write, depth, metrics_name, tree_name, script_name):
    metrics = metrics_in(inputs, metrics_name)
    answer_lines(inputs, write, History(metrics, tree_in(inputs, tree_name), depth_of(depth)), script_name)


def answer_lines(inputs, write, session, script_name):
    """Replies to each line of a script, one after another."""
    try:
        with inputs.open(script_name) as stream:
            for line in lines_of(stream):
                write(session.reply_to(line))
    except ScriptTooLong:
        raise Ending(SCRIPT_LIMIT) from None
    except OSError:
        raise Ending(READ_FAULT) from None


def generate(inputs, write, metrics_name, seed, count):
    write(generated(metrics_in(inputs, metrics_name), *seed_and_count(seed, count)))


def paint(inputs, write, metrics_name, tree_name):
    session = Session(metrics_in(inputs, metrics_name), tree_in(inputs, tree_name))
    try:
        write(svg_of(session.metrics, session.layout))
    except TooMany:
        raise Ending(PAINT, "paint many") from None


def hit_point(inputs, write, metrics_name, tree_name, *point):
    session = Session(metrics_in(inputs, metrics_name), tree_in(inputs, tree_name))
    id = hit(session.layout, *coordinates_of(*point))
    write(f"hit {'none' if id is None else id}\n".encode())


def select(inputs, write, metrics_name, tree_name, *ids):
    session = Session(metrics_in(inputs, metrics_name), tree_in(inputs, tree_name))
    try:
        areas = selection(session.layout, *ids_of(*ids))
    except NoNode as fault:
        raise Ending(NO_NODE, f"node {fault.id}") from None
    write("".join(f"area {' '.join(map(str, area))}\n" for area in areas).encode())


def any_words(*names):
    """File names may be any text."""
    return True


# By the first word and how many there are: what is done, and whether the other words have their form.
COMMANDS = {
    ("layout", 3): (layout, any_words),
    ("edit", 4): (edit, any_words),
    ("check", 3): (check, any_words),
    ("gen", 4): (generate, lambda metrics, *numbers: seed_and_count(*numbers)),
    ("paint", 3): (paint, any_words),
    ("hit", 5): (hit_point, lambda metrics, tree, *point: coordinates_of(*point)),
    ("select", 5): (select, lambda metrics, tree, *ids: ids_of(*ids)),
    ("history", 5): (history, lambda depth, *names: depth_of(depth)),
}


# ---- files


def metrics_in(inputs, name):
    """The metrics of a file, or the ending of their first fault."""
    content = content_of(inputs, name, LONGEST_METRICS, Ending(METRICS, "metrics long"))
    try:
        return read_metrics(content)
    except MetricsFault as fault:
        raise Ending(METRICS, f"metrics {fault.line} {fault.kind}") from None


def tree_in(inputs, name):
    """The tree of a file, or the ending of its first fault."""
    content = content_of(inputs, name, LONGEST_TREE, Ending(TREE, "tree long"))
    try:
        return tree_of(read_json(content))
    except NotJson:
        raise Ending(TREE, "tree json") from None
    except TreeFault as fault:
        raise Ending(TREE, f"tree {fault.element} {fault.kind}") from None


def content_of(inputs, name, most, too_long):
    """The bytes of a file of at most so many."""
    try:
        with inputs.open(name) as stream:
            content = stream.read(most + 1)
    except OSError:
        raise Ending(READ_FAULT) from None
    if len(content) > most:
        raise too_long
    return content
