"""The kinds of case that give one answer each."""

from second import dictionary, lengths
from second.facts import facts_of
from second.facts import shown as shown_text
from second.forms import form_at, properties_of
from second.json_text import NotJson, read_json
from second.kinds import UNKNOWN
from second.metrics import Metrics
from second.metrics_reading import MOST_BYTES as LONGEST_METRICS
from second.metrics_reading import MetricsFault, read_metrics
from second.tree_reading import TreeFault, tree_of

from .faults import (
    NO_SUCH_LINES, NOT_AN_ELEMENT, NOT_METRICS, TOO_LONG, WRONG_VALUE, LineFault)
from .source import lines_of
from .values import Fields, is_text

FORM_LETTERS = {"prefix": "p", "infix": "i", "postfix": "o"}
TRUTHS = ("stretchy", "symmetric", "largeop", "movablelimits")


def length(_known, value):
    """A length text: its millionths and its unit."""
    found = lengths.length_of(text_in(value))
    return "none" if found is None else f"{found.millionths} {found.unit}"


def text_in(value):
    """A value that is a text."""
    if not is_text(value):
        raise LineFault(WRONG_VALUE)
    return value


def resolve(_known, value):
    """How many units a length text is."""
    fields = Fields(value, "length", "em", "ex", "percent_of")
    text = fields.text("length")
    bases = fields.within("em", 0, 2**20), fields.within("ex", 0, 2**32), fields.within("percent_of", -2**34, 2**34)
    found = lengths.length_of(text)
    return "none" if found is None else str(lengths.resolved(found, *bases))


def category(known, value):
    """The operator dictionary's category of a text in a form."""
    fields = Fields(value, "text", "form", "fixed", "metrics")
    text, form, is_fixed = fields.text("text"), fields.choice("form", FORM_LETTERS), fields.flag("fixed")
    return dictionary.category_of(metrics_in(known, fields), operator_text(text), form, is_fixed)


def axis(known, value):
    """The axis along which an operator stretches."""
    fields = Fields(value, "text", "metrics")
    text = fields.text("text")
    return dictionary.axis_of(metrics_in(known, fields), operator_text(text))


def operator_text(text):
    """The text of an operator that shows these characters."""
    return dictionary.text_of([ord(letter) for letter in text])


def metrics_in(known, fields):
    """The metrics of the known file that is named; where none is, metrics without operator lines."""
    if not fields.has("metrics"):
        return Metrics()
    try:
        return read_metrics(metrics_bytes(known.content(fields.text("metrics"))))
    except MetricsFault:
        raise LineFault(NOT_METRICS) from None


def metrics_bytes(data):
    """The bytes of a metrics file, which are at most so many."""
    if len(data) > LONGEST_METRICS:
        raise LineFault(TOO_LONG)
    return data


def facts(_known, value):
    """What an element is: kind, space or ink, core, forms of its children, place of its prescripts."""
    about = facts_of(only_child(value))
    forms = [form_at(about, place, dictionary.PREFIX) for place in range(len(about.flow))]
    return " ".join([
        kind_word(about.laid),
        "space" if about.is_space_like else "ink",
        *core_words(about.core),
        "".join(FORM_LETTERS[form] for form in forms) or "-",
        str(about.prescripts),
    ])


def facts_file(known, value):
    """The same of the element that a known file holds."""
    content = known.content(text_in(value))
    try:
        element = read_json(content)
    except NotJson:
        raise LineFault(NOT_AN_ELEMENT) from None
    return facts(known, element)


def only_child(value):
    """An element that stands as only child of a `math`."""
    try:
        return tree_of({"name": "math", "children": [value]}).root.children[0]
    except TreeFault:
        raise LineFault(NOT_AN_ELEMENT) from None


def kind_word(kind):
    """The word of a kind: `annotation-xml` is AnnotationXml."""
    return "Unknown" if kind == UNKNOWN else "".join(part.capitalize() for part in kind.split("-"))


def core_words(core):
    """The text of a core, and a letter for each of its attributes."""
    if core is None:
        return ["none"]
    letters = "".join({True: "t", False: "f", None: "-"}[getattr(core, name)] for name in TRUTHS)
    return [operator_word(core), FORM_LETTERS.get(core.form, "-") + letters]


def operator_word(core):
    """No character, one, two that take four digits each, or others."""
    if core.text == dictionary.OTHER:
        return "other"
    return codes(map(chr, core.text)) or "empty"


def codes(text):
    return "+".join(f"{ord(letter):04X}" for letter in text)


def properties(known, value):
    """The properties of an operator in a form: the dictionary's, and its attributes in their place."""
    fields = Fields(value, "element", "form", "metrics")
    node, form = only_child(fields.value("element")), fields.choice("form", FORM_LETTERS)
    if node.name != "mo":
        raise LineFault(NOT_AN_ELEMENT)
    found = properties_of(metrics_in(known, fields), facts_of(node).core, form)
    letters = "".join("t" if getattr(found, name) else "f" for name in TRUTHS)
    return f"{found.lspace} {found.rspace} {letters}"


def shown(_known, value):
    """The shown text of a token other than a one-character `mi`."""
    node = only_child({"name": "mtext", "text": text_in(value)})
    return codes(shown_text(node.text)) or "empty"


def metrics(known, value):
    """Whether a metrics file has a fault, as it is or with other lines in place of one."""
    fields = Fields(value, "file", "line", "lines")
    data = known.content(fields.text("file"))
    if fields.has("line") or fields.has("lines"):
        data = with_lines(data, fields)
    try:
        read_metrics(metrics_bytes(data))
    except MetricsFault as fault:
        return f"fault {fault.line} {fault.kind}"
    return "ok"


def with_lines(data, fields):
    """A file in which these lines stand in place of a line."""
    number, texts = fields.count("line"), fields.items("lines", is_text)
    lines = lines_of(data)
    if not 1 <= number <= len(lines):
        raise LineFault(NO_SUCH_LINES)
    lines[number - 1:number] = [text.encode() + b"\n" for text in texts]
    return b"".join(lines)


def tree(_known, value):
    """Whether a JSON value is a tree."""
    try:
        return f"ok {tree_of(value).next_id}"
    except TreeFault as fault:
        return f"fault {fault.element} {fault.kind}"


def tree_file(known, value):
    """Whether the JSON value of a known file of any size is a tree."""
    try:
        return tree(known, read_json(known.content(text_in(value))))
    except NotJson:
        return "json"


KINDS = {
    "length": length,
    "resolve": resolve,
    "category": category,
    "axis": axis,
    "properties": properties,
    "shown": shown,
    "facts": facts,
    "factsfile": facts_file,
    "tree": tree,
    "treefile": tree_file,
    "metrics": metrics,
}
