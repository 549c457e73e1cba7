"""Inputs that a seed decides, for `fuzz.py`: sound and hostile words, metrics, trees and scripts.

`KINDS` has a function for each kind of case, from a source of random numbers to a `Case`.
"""

import json
import re
from dataclasses import dataclass, field
from pathlib import Path

from second.dictionary import CATEGORIES
from second.edits import Refused, edited
from second.json_text import NotJson, read_json
from second.metrics import CONSTANTS, CORNERS
from second.script import NoCommand, command_in
from second.tree import Tree
from second.tree_reading import TreeFault, tree_of

TOP = Path(__file__).resolve().parent.parent
FOLDER = None  # in place of a file's bytes: a folder of that name


@dataclass
class Case:
    """Words for the program, and the files that are there, by name."""

    words: list
    files: dict = field(default_factory=dict)

    @property
    def is_edit(self):
        return self.words[:1] in (["edit"], ["history"])


# ---- real files


def real_files():
    """The bytes of the samples and of the fonts of cases, by what they are."""
    samples, cases = TOP / "samples", TOP / "crates" / "run_cases" / "data"
    metrics = [path.read_bytes() for path in sorted(cases.glob("*.metrics")) if "latin" not in path.name]
    return {
        "metrics": metrics,
        "font": (samples / "latin-modern-math.metrics").read_bytes(),
        "tree": [path.read_bytes() for path in sorted(samples.glob("*.json"))],
        "script": [path.read_bytes() for path in sorted(samples.glob("*.script"))],
    }


REAL = real_files()

# ---- texts and values

LETTERS = "xfVhAZazαΩΣ0123 "
OPERATORS = "+-−=()[]{}|‖∑∏∫⋂√→←⇒^~¯‾_,;:!%'′∂ⅆ⁢⁡∇∼⟨⟩⏞⏟⎴"
ODD_TEXTS = ["", " ", "\t\n", "  a  b ", "a\u000bb", "\u00a0", "e\u0301", "=\u0338", "<\u20d2", "\u0338", "𝑥", "𝑥𝑦", "≠", "ﬁ", "가", "\u1100\u1161", "\u212b", "\u0344", "\uffff", "\U0010ffff", "\x7f", "\x00", "a\u0327\u0301"]
LENGTHS = ["0", "-0", "1px", "2em", "-1em", ".5ex", "3.pt", "1e3px", "50%", "200%", "-20%", "0.1in", "1PC", "2q", "1cm", "+3mm", " 4px ", "1 px", "999999999em", "9999999999px", "1048576px", "1024px", "1025px", "1073741824px", "1048575.9999999px", "0.0000001px", "-0.000001px", "", "auto", "2", "px", "16px", "65536em", "1000ex", "40em", "0px", "0%", "10px", "100px"]
TRUTHS = ["true", "false", "TRUE", "False", "1", "", " true", "tru\u212a"]
LEVELS = ["0", "1", "2", "+1", "-1", "+2", "15", "16", "999", "1000", "+", "-", "", " 1", "007", "-15", "+999", "3"]
SPANS = ["1", "2", "2", "2", "3", "3", "4", "002", "0", "00", "64", "65", "999", "9999", "10000", "+2", "-1", " 2", "2.0", "", "two", "\u0662"]
VALUES = {
    "mathsize": LENGTHS, "lspace": LENGTHS, "rspace": LENGTHS, "minsize": LENGTHS, "maxsize": LENGTHS, "width": LENGTHS, "height": LENGTHS,
    "depth": LENGTHS, "voffset": LENGTHS, "linethickness": LENGTHS, "scriptlevel": LEVELS, "displaystyle": TRUTHS, "stretchy": TRUTHS,
    "symmetric": TRUTHS, "largeop": TRUTHS, "movablelimits": TRUTHS, "accent": TRUTHS, "accentunder": TRUTHS,
    "form": ["prefix", "infix", "postfix", "PREFIX", "none", ""], "mathvariant": ["normal", "NORMAL", "italic", "bold"], "display": ["block", "BLOCK", "inline"],
    "columnspan": SPANS, "rowspan": SPANS, "dir": ["ltr", "rtl", "rtl", "RtL", "LTR", "", " rtl", "auto"], "data-x:y.z_1": ["", "é", "x" * 50],
}
# Which attributes are likely on which elements; all of them may stand on any.
LIKELY = {
    "mo": ["form", "stretchy", "symmetric", "largeop", "movablelimits", "lspace", "rspace", "minsize", "maxsize"], "mi": ["mathvariant"], "mfrac": ["linethickness"],
    "mspace": ["width", "height", "depth"], "mpadded": ["width", "height", "depth", "lspace", "voffset"], "munder": ["accentunder"], "mover": ["accent"],
    "munderover": ["accent", "accentunder"], "mrow": ["dir"], "msqrt": ["dir"], "msubsup": ["dir"], "mtr": ["dir"], "mtd": ["columnspan", "rowspan"],
    "mstyle": ["dir", "displaystyle", "scriptlevel", "mathsize"], "math": ["display", "displaystyle", "mathsize"],
}
CHILDREN = {"mfrac": 2, "mroot": 2, "msub": 2, "msup": 2, "munder": 2, "mover": 2, "msubsup": 3, "munderover": 3}
TOKENS = ["mi", "mn", "mo", "mo", "mo", "mtext", "ms", "mspace"]
PARENTS = ["mrow", "mrow", "mrow", "mfrac", "mroot", "msqrt", "msub", "msup", "msubsup", "munder", "mover", "munderover", "munderover", "mmultiscripts", "mtable", "mpadded", "mphantom", "merror", "mstyle", "semantics", "maction", "mtr", "mtd", "math", "foo", "annotation-xml", "mprescripts"]


def text_for(random, name):
    if random.random() < 0.08:
        return random.choice(ODD_TEXTS)
    if name == "mo":
        return random.choice(OPERATORS)
    if name == "mtext" and random.random() < 0.5:
        return random.choice(["", " ", "if", "a b"])
    return "".join(random.choice(LETTERS) for _ in range(random.choice([1, 1, 1, 2, 4])))


def attributes_for(random, name):
    names = [each for each in LIKELY.get(name, []) if random.random() < 0.22]
    names += [random.choice(list(VALUES)) for _ in range(random.choice([0] * 12 + [1, 2]))]
    found = {each: random.choice(VALUES[each]) for each in names}
    return found


def element(random, depth, name=None):
    """A tree of at most so many levels, mostly with the children that its elements want."""
    if name is None:
        name = random.choice(TOKENS if depth <= 1 or random.random() < 0.2 else PARENTS)
    made = {"name": name}
    attributes = attributes_for(random, name)
    if attributes:
        made["attributes"] = attributes
    if name in ("mi", "mn", "mo", "mtext", "ms", "annotation"):
        made["text"] = text_for(random, name)
    elif name != "mspace" or random.random() < 0.03:
        children = children_for(random, name, depth - 1)
        if children:
            made["children"] = children
    return made


def children_for(random, name, depth):
    if depth <= 0:
        return []
    if name == "mtable" and random.random() < 0.95:
        return [element(random, depth, "mtr") for _ in range(random.randrange(4))]
    if name == "mtr" and random.random() < 0.95:
        return [element(random, depth, "mtd") for _ in range(random.randrange(4))]
    if name == "mmultiscripts":
        return scripts_for(random, depth)
    count = CHILDREN.get(name, random.choice([0, 1, 1, 2, 3, 4]))
    if random.random() < 0.05:
        count = max(0, count + random.choice([-1, 1]))
    children = [element(random, depth) for _ in range(count)]
    if random.random() < 0.05:
        children.insert(random.randrange(count + 1), element(random, depth, random.choice(["annotation", "mspace", "annotation-xml"])))
    return children


def scripts_for(random, depth):
    children = [element(random, depth) for _ in range(1 + 2 * random.randrange(3))]
    if random.random() < 0.6:
        children.append({"name": "mprescripts"})
        children += [element(random, depth) for _ in range(2 * random.randrange(3))]
    if random.random() < 0.08:
        children.insert(random.randrange(len(children) + 1), element(random, depth))
    return children


def tree(random):
    root = element(random, 2, "math")
    if random.random() < 0.2:
        root.setdefault("attributes", {})["dir"] = "rtl"
    root["children"] = [element(random, random.choice([2, 3, 4, 5])) for _ in range(random.choice([1, 1, 2, 3, 6]))]
    return json_bytes(random, root)


def json_bytes(random, value):
    return json.dumps(value, ensure_ascii=random.random() < 0.3, separators=random.choice([(",", ":"), (", ", ": ")])).encode("utf-8", "surrogatepass")


# ---- metrics

SMALL = [0, 1, 7, 60, 128, 250, 431, 500, 683, 1000]
BORDERS = [0, 1, -1, 65535, -32768, 32767]


def small_number(random, is_hostile):
    if is_hostile and random.random() < 0.2:
        return random.choice(BORDERS)
    return random.choice(SMALL) if random.random() < 0.5 else random.randrange(1200)


def metrics(random, is_hostile=False):
    """A sound metrics file of few glyphs; a hostile one has numbers at the borders."""
    if not is_hostile and random.random() < 0.25:
        return random.choice(REAL["metrics"])

    def number():
        return small_number(random, is_hostile)

    def length():
        return abs(number())

    version = random.choice([1, 2, 2])
    lines = [f"mathlay-metrics {version}", f"upem {random.choice([16, 16384]) if is_hostile else random.choice([1000, 1024, 2048])}"]
    lines += [f"line {length()} {length()}", f"xheight {length()}"]
    if random.random() < 0.7:
        lines.append(f"overlap {random.choice([0, 0, 20, 100, length()])}")
    lines += [f"const {name} {random.randrange(201) if 'ScaleDown' in name else number()}" for name in CONSTANTS if random.random() < 0.8]
    letters = sorted(set(random.sample(OPERATORS, 18)) | set("xf(|√→∑"))
    names = ["missing"] + [f"g{ord(letter):X}" for letter in letters] + [f"v{place}" for place in range(6)]
    for name in names:
        more = random.choice(["", f" {number()}", f" {number()} {number()}"])
        lines.append(f"glyph {name} {length()} {number()} {number()}{more}")
    lines += [f"char {ord(letter):04X} g{ord(letter):X}" for letter in letters]
    lines += growth(random, names, length)
    lines += kern_lines(random, names, number) if version == 2 else []
    lines += operator_lines(random)
    return "".join(line + "\n" for line in lines).encode()


def growth(random, names, length):
    """Variants and assemblies of some glyphs."""
    lines = []
    for name in names:
        for axis in "vh":
            if random.random() < 0.3:
                measures = sorted(length() for _ in range(random.randrange(4)))
                lines += [f"{axis}variant {name} {random.choice(names)} {measure}" for measure in measures]
            if random.random() < 0.3:
                for _ in range(random.choice([1, 1, 2, 3, 4])):
                    role = random.choice(["EXT", "FIX"])
                    lines.append(f"{axis}assembly {name} {random.choice(names)} {role} {length()} {length()} {length()}")
    return lines


def kern_lines(random, names, number):
    """Kerns of some corners, and of most of those of the glyph that shows what has none."""
    lines = []
    for name in names:
        for corner in CORNERS:
            if random.random() < (0.8 if name == "missing" else 0.35):
                heights = sorted({number() - random.choice([0, 0, 300]) for _ in range(random.choice([0, 1, 1, 2, 3, 5]))})
                pairs = "".join(f" {max(height, -32768)} {number() - 400}" for height in heights)
                lines.append(f"kern {name} {corner} {max(number() - 400, -32768)}{pairs}")
    random.shuffle(lines)
    return lines


def wrong_kern(random):
    """A line that is no sound kern, or perhaps is one."""
    return random.choice(
        [
            "kern", "kern missing", "kern missing TR", "kern missing TR 1", "kern missing tr 1", "kern nobody TR 1", "kern a$ TR 1", "kern missing TR 1 2", "kern missing TR x", "kern missing XX x",
            "kern missing BL 65536", "kern missing BL -32769 0 0", "kern missing BL 0 0 0 0 0", "kern missing BL 0 1 0 0 0", "kern missing BL 0 1 0 1 0", "kern missing BL 0 -5 0 5 65536", "kern missing BL +1",
            "kern missing TL 0" + "".join(f" {place} 0" for place in range(16)), "kern missing TL 0" + "".join(f" {place} 0" for place in range(17)), "mathlay-metrics 2", "kern nobody XX 0", "kern missing XX 0 0 0",
        ]
    )


def operator_lines(random):
    pairs = {}
    for _ in range(random.choice([0, 0, 3, 8])):
        text = random.choice([f"{ord(random.choice(OPERATORS)):04X}", "003D+0338", "002B+20D2", "003A+003D"])
        form = random.choice(["prefix", "infix", "postfix"])
        pairs[text, form] = f"operator {text} {form} {random.choice(list(CATEGORIES))} {random.choice(['block', 'inline'])}"
    return list(pairs.values())


# ---- scripts


def script(random, root):
    """Edits of a tree: most name an element that is there."""
    count = len(re.findall(rb'"name"', root))
    lines = [edit_line(random, count) for _ in range(random.choice([1, 3, 8, 20]))]
    return random.choice([b"", b"", b"\n"]).join([b"\n".join(lines), random.choice([b"", b"\n", b"\n\n \t\n"])])


def edit_line(random, count):
    if random.random() < 0.1:
        return hostile_line(random)
    node = random.choice([random.randrange(1, count + 2), random.randrange(1, count + 2), 1, count + 3, 0, 2**32, 2**64 - 1] if random.random() < 0.3 else [random.randrange(1, count + 1)])
    op = random.choice(["show", "text", "text", "attr", "attr", "attr", "insert", "insert", "remove", "replace"])
    line = {"op": op}
    if op != "show":
        line["node"] = node
    if op == "text":
        line["text"] = text_for(random, random.choice(["mo", "mi", "mtext"]))
    elif op == "attr":
        line["name"] = random.choice(list(VALUES))
        if random.random() < 0.8:
            line["value"] = random.choice(VALUES[line["name"]])
        elif random.random() < 0.5:
            line["value"] = None
    elif op == "insert":
        line["index"] = random.choice([0, 0, 1, 1, 2, 3, 2**32, 2**64 - 1])
    if op in ("insert", "replace"):
        line["element"] = element(random, random.choice([1, 2, 3]))
    return json_bytes(random, line).replace(b"\n", b" ")


def hostile_line(random):
    return random.choice(
        [
            b"", b" ", b"\t\x0c\r", b"\x0b", b"null", b"{}", b"[]", b"{", b'{"op":"show"', b'{"op":"show"}x', b'{"op":"show"} ', b'\xef\xbb\xbf{"op":"show"}', b'{"op":"Show"}', b'{"op":1}',
            b'{"op":"show","node":1}', b'{"op":"remove"}', b'{"op":"remove","node":1.0}', b'{"op":"remove","node":1e0}', b'{"op":"remove","node":-0}', b'{"op":"remove","node":-1}',
            b'{"op":"remove","node":18446744073709551616}', b'{"op":"remove","node":01}', b'{"op":"remove","node":"1"}', b'{"op":"remove","node":2,"node":3}', b'{"op":"remove","node":1e400}',
            b'{"op":"text","node":1,"text":"\\ud800"}', b'{"op":"text","node":2,"text":"\\ud83d\\ude00"}', b'{"op":"text","node":2,"text":"\x01"}', b'{"op":"text","node":2,"text":"\\u0000"}', b'{"op":"text","node":2,"text":null}',
            b'{"op":"attr","node":2,"name":"1x","value":"y"}', b'{"op":"attr","node":2,"name":"dir","value":"RTL"}', b'{"op":"attr","node":2,"name":"x"}', b'{"op":"attr","node":2,"name":"x","value":1}', b'{"op":"attr","node":2,"name":"x","value":"1","text":""}',
            b'{"op":"insert","node":1,"index":0}', b'{"op":"insert","node":1,"index":0,"element":null}', b'{"op":"insert","node":1,"index":-1,"element":{"name":"mi"}}', b'{"op":"insert","node":1,"index":0,"element":{"name":"math","children":[{"name":"math"}]}}',
            b'{"op":"insert","node":1,"index":0,"element":{"name":"mi","attributes":{"dir":"rtl"}}}', b"\xff", b'{"op":"sh\xc3"}', b'{"op":"show",}', b"{'op':'show'}", b'{"op":NaN}', b'{"\\u006fp":"show"}', b'\r{"op":"show"}\r',
            b"[" * 127 + b"]" * 127, b"[" * 128 + b"]" * 128, b'{"op":"text","node":2,"text":"' + b"a" * 65537 + b'"}', b'{"op":"text","node":2,"text":"' + b"a" * 65536 + b'"}',
        ]
    )


# ---- changed bytes

PIECES = [b"0", b"-1", b"65535", b"65536", b"99999", b"-32768", b"-32769", b"999999", b"1000000", b"1e999", b"\x00", b"\xff", b"\r\n", b"\n", b" ", b"\t", b'"', b"{", b"}", b"[", b"]", b",", b":", b"\\u0041", b"\\ud800", b"\\", b"#", b"D800", b"10FFFF", b"110000", b"glyph", b"const", b"kern", b" TR ", b" BL ", b"mathlay-metrics 2", b"char 0041 missing\n", b"null", b"true", b"math", b'"children":[]', b'"text":"x"', b"2147483648", b"4294967296", b"18446744073709551616", b"\xc3\xa9", b"\xed\xa0\x80"]


def changed(random, content, others):
    """Bytes with a few changes: some replaced, cut, repeated, moved, or taken from other content."""
    content = bytearray(content)
    for _ in range(random.choice([1, 1, 2, 4])):
        start = random.randrange(len(content) + 1)
        end = min(len(content), start + random.choice([0, 1, 1, 2, 5, 20, 200]))
        way = random.randrange(7)
        if way == 0:
            content[start:end] = random.choice(PIECES)
        elif way == 1:
            content[start:end] = bytes(random.randrange(256) for _ in range(end - start))
        elif way == 2:
            del content[start:end]
        elif way == 3:
            content[start:start] = content[start:end] * random.choice([1, 2, 3])
        elif way == 4:
            other = random.choice(others)
            place = random.randrange(len(other) + 1)
            content[start:end] = other[place : place + random.choice([1, 10, 100])]
        elif way == 5:
            content = changed_number(random, content)
        else:
            del content[random.choice([start, len(content)]) :]
    return bytes(content)


def changed_number(random, content):
    """One of the numbers in it replaced by another one."""
    numbers = list(re.finditer(rb"-?\d+", content))
    if numbers:
        found = random.choice(numbers)
        content[found.start() : found.end()] = random.choice(PIECES[:10])
    return content


# ---- kinds of cases


def formulas(random):
    """Sound trees and metrics."""
    return Case(["layout", "m", "t"], {"m": metrics(random), "t": tree(random)})


def borders(random):
    """Metrics with numbers at their borders."""
    return Case(["layout", "m", "t"], {"m": metrics(random, is_hostile=True), "t": tree(random)})


def samples(random):
    """The formulas of samples/ with a part of one in another, and their font."""
    root = json.loads(random.choice(REAL["tree"]))
    other = json.loads(random.choice(REAL["tree"]))
    parents = [each for each in walk(root) if each.get("children")]
    parent = random.choice(parents)
    parent["children"][random.randrange(len(parent["children"]))] = random.choice(list(walk(other)))
    return Case(["layout", "m", "t"], {"m": REAL["font"], "t": json.dumps(root, ensure_ascii=False).encode()})


def walk(value):
    yield value
    for child in value.get("children", []):
        yield from walk(child)


def edits(random):
    """Scripts of sound and hostile lines over sound trees."""
    root = tree(random)
    return Case(["edit", "m", "t", "s"], {"m": metrics(random), "t": root, "s": script(random, root)})


def metrics_bytes(random):
    """Real metrics with changed bytes."""
    base = REAL["font"] if random.random() < 0.05 else random.choice(REAL["metrics"])
    content = changed(random, base if random.random() < 0.5 else metrics(random, random.random() < 0.5), REAL["metrics"])
    return Case(["check", "m", "t"], {"m": content, "t": b'{"name":"math"}'})


def kerns(random):
    """Metrics of version 2, sound and with lines that may be wrong, over tokens with scripts."""
    lines = metrics(random, random.random() < 0.3).split(b"\n")
    for _ in range(random.choice([0, 0, 1, 2])):
        lines.insert(random.randrange(1, len(lines)), wrong_kern(random).encode())
    if random.random() < 0.5:
        lines[0] = random.choice([b"mathlay-metrics 2", b"mathlay-metrics 2", b" mathlay-metrics  2 ", b"mathlay-metrics 02", b"mathlay-metrics 3"])
    parents = [element(random, 2, random.choice(["msub", "msup", "msubsup", "munder", "munderover", "mmultiscripts"])) for _ in range(4)]
    return Case([random.choice(["layout", "layout", "check"]), "m", "t"], {"m": b"\n".join(lines), "t": json_bytes(random, {"name": "math", "children": parents})})


def directions(random):
    """Trees in which many elements say their direction, and scripts that turn some of them round."""
    root = json.loads(tree(random))
    elements = list(walk(root))
    for each in random.sample(elements, k=(len(elements) + 2) // 3):
        each.setdefault("attributes", {})["dir"] = random.choice(VALUES["dir"])
    lines = [direction_line(random, len(elements)) for _ in range(random.choice([1, 4, 12]))]
    files = {"m": metrics(random), "t": json_bytes(random, root), "s": b"\n".join(lines)}
    return Case(random.choice([["layout", "m", "t"], ["paint", "m", "t"], ["edit", "m", "t", "s"], ["history", "9", "m", "t", "s"]]), files)


def direction_line(random, count):
    """A line that sets a direction or takes it away, shows, undoes, or edits."""
    if random.random() < 0.3:
        return random.choice([b'{"op":"show"}', b'{"op":"show"}', b'{"op":"undo"}', edit_line(random, count).replace(b"\n", b" ")])
    line = {"op": "attr", "node": random.randrange(1, count + 1), "name": "dir"}
    if random.random() < 0.8:
        line["value"] = random.choice(VALUES["dir"])
    return json_bytes(random, line)


def tables(random):
    """Tables whose cells span columns and rows, and edits of them."""
    chance = random.choice([0.1, 0.3, 0.7])

    def cell():
        made = element(random, 2, "mtd")
        made["attributes"] = {name: random.choice(SPANS) for name in ("columnspan", "rowspan") if random.random() < chance}
        if random.random() < 0.6:
            made["children"] = [{"name": "mspace", "attributes": {name: random.choice(LENGTHS) for name in ("width", "height", "depth")}}]
        return made

    rows = [{"name": "mtr", "children": [cell() for _ in range(random.randrange(6))]} for _ in range(random.randrange(7))]
    if random.random() < 0.1:
        rows.append(element(random, 2))
    table = {"name": random.choice(["mtable"] * 8 + ["mrow"]), "children": rows}
    root = json_bytes(random, {"name": "math", "children": [table]})
    if random.random() < 0.5:
        return Case(["layout", "m", "t"], {"m": metrics(random), "t": root})
    count = len(re.findall(rb'"name"', root))
    lines = [{"op": "attr", "node": random.randrange(1, count + 1), "name": random.choice(["columnspan", "rowspan"]), "value": random.choice([*SPANS, None])} for _ in range(5)]
    text = b"".join(json_bytes(random, each) + b"\n" + (edit_line(random, count) + b"\n" if random.random() < 0.3 else b"") for each in lines)
    return Case(["edit", "m", "t", "s"], {"m": metrics(random), "t": root, "s": text + b'{"op":"show"}\n'})


def tree_bytes(random):
    """Real trees with changed bytes."""
    base = random.choice(REAL["tree"]) if random.random() < 0.5 else tree(random)
    return Case([random.choice(["check", "layout"]), "m", "t"], {"m": REAL["metrics"][0], "t": changed(random, base, REAL["tree"])})


def script_bytes(random):
    """Scripts with changed bytes."""
    root = tree(random)
    content = changed(random, script(random, root) + random.choice(REAL["script"]), REAL["tree"] + REAL["script"])
    return Case(["edit", "m", "t", "s"], {"m": REAL["metrics"][0], "t": root, "s": content})


def pictures(random):
    """The command `paint`."""
    return Case(["paint", "m", "t"], {"m": metrics(random, random.random() < 0.1), "t": tree(random)})


def pointers(random):
    """The command `hit`, mostly near the formula."""
    coordinates = [str(random.choice([random.randrange(-40000, 60000), random.randrange(-5000, 20000), 0, -1, 8192, 99999999999])) for _ in range(2)]
    return Case(["hit", "m", "t", *coordinates], {"m": metrics(random), "t": tree(random)})


def selections(random):
    """The command `select`, mostly of elements that are there."""
    root = tree(random)
    count = len(re.findall(rb'"name"', root))
    ids = [str(random.choice([random.randrange(1, count + 1)] * 8 + [0, count + 1, 2**32 - 1])) for _ in range(2)]
    return Case(["select", "m", "t", *ids], {"m": metrics(random), "t": root})


def histories(random):
    """The command `history`: scripts with lines that undo and redo, and some that almost do."""
    root = tree(random)
    lines = script(random, root).split(b"\n")
    steps = [b'{"op":"undo"}'] * 5 + [b'{"op":"redo"}'] * 3 + [b' {"op" : "redo" } ', b'{"op":"undo","node":1}', b'{"op":"undo","op":"redo"}', b'{"op":"Undo"}', b'["undo"]', b'{"op":"show"}']
    mixed = [each for line in lines for each in [line, *random.choices(steps, k=random.choice([0, 0, 1, 1, 2, 4]))]]
    depth = random.choice(["1", "2", "3", "0007", "1000"])
    return Case([random.choice(["history"] * 9 + ["edit"]), depth, "m", "t", "s"], {"m": metrics(random), "t": root, "s": b"\n".join([*mixed, b'{"op":"show"}'])})


def long_histories(random):
    """The command `history` with a script of 1,000 lines: edits, mostly of elements that are there, undos and redos. What is shown
    is that of a tree laid out afresh."""
    root, depth, lines = tree(random), random.choice(["1", "3", "20", "1000"]), []
    ways = Ways(root, int(depth))
    while len(lines) < 999:
        part = random.random()
        if part < 0.2:
            back = random.random() < 0.6
            for _ in range(random.choice([1, 1, 1, 2, 3, 8])):
                lines.append(b'{"op":"undo"}' if back else b'{"op":"redo"}')
                ways.step(back)
        elif part < 0.3:
            lines.append(b'{"op":"show"}')
        else:
            lines.append(aimed(random, edit_line(random, 3), ways.ids()))
            ways.edit(lines[-1])
    return Case(["history", depth, "m", "t", "s"], {"m": metrics(random), "t": root, "s": b"\n".join([*lines[:999], b'{"op":"show"}'])})


def aimed(random, line, ids):
    """An edit mostly of an element that is there."""
    try:
        value = json.loads(line)
    except ValueError:
        return line
    if isinstance(value, dict) and "node" in value and random.random() < 0.9:
        value["node"] = random.choice(ids)
    return json_bytes(random, value).replace(b"\n", b" ")


class Ways:
    """The trees that a script stands at, the ones before and the ones that were undone: which ids there are by then."""

    def __init__(self, root, depth):
        self.past, self.tree, self.future, self.depth = [], None, [], depth
        try:
            self.tree = tree_of(read_json(root))
        except (NotJson, TreeFault):
            pass

    def ids(self):
        found, left = [], [self.tree.root] if self.tree else []
        while left:
            node = left.pop()
            found.append(node.id)
            left += node.children
        return found or [1]

    def edit(self, line):
        try:
            made = edited(self.tree, command_in(line))
        except (NoCommand, Refused, AttributeError):
            return
        self.past, self.tree, self.future = [*self.past, self.tree][-self.depth:], made, []

    def step(self, back):
        source, other = (self.past, self.future) if back else (self.future, self.past)
        if source:
            other.append(self.tree)
            self.tree = Tree(source.pop().root, self.tree.next_id)


def nested(random):
    """Deep trees, round the limits of levels and of JSON."""
    name = random.choice(["mrow", "msqrt", "msup", "mfrac", "foo", "mstyle", "mtd", "mover", "mpadded"])
    root = element(random, 2)
    for _ in range(random.choice([20, 55, 57, 58, 59, 60, 61, 62, 63, 64])):
        more = [element(random, 1) for _ in range(random.choice([0, 1, 1, 2]))]
        root = {"name": name, "children": [root, *more] if random.random() < 0.5 else [*more, root]}
    root = {"name": "math", "children": [root]}
    return Case([random.choice(["layout", "check"]), "m", "t"], {"m": metrics(random), "t": json_bytes(random, root)})


def wide(random):
    """Rows, tables and texts that are long."""
    count = random.choice([100, 500, 1500])
    name = random.choice(["mrow", "mtable", "mtr", "mtext", "mi", "mmultiscripts"])
    if name in ("mtext", "mi"):
        text = "".join(random.choice(LETTERS + OPERATORS) for _ in range(random.choice([count, 20000, 65536, 65537])))
        child = {"name": name, "text": text}
    else:
        inner = {"mtable": "mtr", "mtr": "mtd"}.get(name)
        child = {"name": name, "children": [element(random, 2, inner) for _ in range(count)]}
    return Case(["layout", "m", "t"], {"m": metrics(random), "t": json_bytes(random, {"name": "math", "children": [child]})})


def words(random):
    """Any words, over files that are there, aren't there, or are folders."""
    pool = ["layout", "edit", "check", "gen", "paint", "hit", "select", "history", "m", "t", "s", "folder", "none", "", "--help", "--version", "Layout", "0", "1", "20000", "20001", "18446744073709551615", "18446744073709551616", "00000000000000000007", "000000000000000000007", "00001", "000001", "1000", "1001", "-12345678901", "123456789012", "-0", "00000000002", "4294967295", "4294967296", "1.0", "--1", "+1", "-1", "1 ", "é", "./m", "-"]
    made = [random.choice(pool) for _ in range(random.choice([0, 1, 2, 3, 3, 4, 4, 5, 5, 6]))]
    if made and random.random() < 0.6:
        made[0] = random.choice(pool[:8])
    if len(made) > 3 and random.random() < 0.5:
        made[1:4] = random.choice([["m", "t", made[3]], [random.choice(["1000", "1001", "0", "0001", "00001", "-1"]), "m", "t"]])
    files = {"m": random.choice(REAL["metrics"][:1] * 3 + [b"", b"mathlay-metrics 1\n"]), "t": random.choice([tree(random), b"", b"{}"]), "s": random.choice([b'{"op":"show"}', b""]), "folder": FOLDER}
    return Case(made, files)


def generated(random):
    """The command `gen`."""
    seed = random.choice([0, 1, 7, 2**64 - 1, random.randrange(2**64), random.randrange(1000)])
    return Case(["gen", "m", str(seed), str(random.choice([1, 2, 5, 12]))], {"m": metrics(random, random.random() < 0.2)})


KINDS = {
    each.__name__: each
    for each in (formulas, borders, samples, edits, histories, long_histories, kerns, directions, pictures, pointers, selections, tables, metrics_bytes, tree_bytes, script_bytes, nested, wide, words, generated)
}
# How often a kind comes among others; one that takes long comes only where it is named.
WEIGHTS = {"formulas": 8, "borders": 3, "samples": 2, "edits": 6, "histories": 4, "long_histories": 0, "kerns": 3, "directions": 3, "pictures": 2, "pointers": 2, "selections": 2, "tables": 4, "metrics_bytes": 4, "tree_bytes": 4, "script_bytes": 3, "nested": 2, "wide": 1, "words": 2, "generated": 1}
