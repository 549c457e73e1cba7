"""Makes of MathML 3, and of what converters write, the MathML Core that the program lays out; docs/MATHML.md has the whole list.

What has no effect is counted by kind, so that each kind is told once."""

import re
from collections import Counter

from companion import letters
from companion.command import Fault
from companion.mathml import Node
from companion.trees import MOST_LEVELS, TOKENS, WHITE

SPACES = {f"{'negative' * negative}{'very' * very}{word}mathspace": f"{'-' * negative}{eighteenths / 18:.6f}em"
          for negative in (False, True)
          for very, word, eighteenths in ((2, "thin", 1), (1, "thin", 2), (0, "thin", 3), (0, "medium", 4), (0, "thick", 5),
                                          (1, "thick", 6), (2, "thick", 7))}
WORDS = {"linethickness": {"thin": "50%", "medium": "100%", "thick": "200%"},
         "mathsize": {"small": "80%", "normal": "100%", "big": "125%"}}
OLD_NAMES = {"color": "mathcolor", "background": "mathbackground", "fontsize": "mathsize"}
LENGTHS = ("lspace", "rspace", "width", "height", "depth", "voffset", "minsize", "maxsize", "linethickness", "mathsize")

# What has an effect: on every element, and on some.
EVERYWHERE = {"displaystyle", "scriptlevel", "mathsize", "mathcolor", "mathbackground", "dir"}
EFFECTS = {
    "math": {"display", "mathvariant"}, "mstyle": {"mathvariant"},
    "mi": {"mathvariant"}, "mn": {"mathvariant"}, "mtext": {"mathvariant"}, "ms": {"mathvariant"},
    "mo": {"mathvariant", "form", "stretchy", "symmetric", "largeop", "movablelimits", "lspace", "rspace", "minsize", "maxsize",
           "accent", "fence", "separator"},
    "mspace": {"width", "height", "depth"}, "mpadded": {"width", "height", "depth", "lspace", "voffset"},
    "mtd": {"columnspan", "rowspan"}, "mfrac": {"linethickness", "bevelled"}, "munder": {"accentunder"}, "mover": {"accent"}, "munderover": {"accent", "accentunder"},
    "menclose": {"notation"}, "mfenced": {"open", "close", "separators"}, "maction": {"actiontype"}, "mglyph": {"alt"},
}
# What says nothing about how a formula looks, and so is passed over without a word.
SILENT = {"id", "class", "href", "xref", "alttext", "altimg", "altimg-width", "altimg-height", "altimg-valign", "encoding", "src",
          "definitionURL", "definitionurl", "cd", "name", "intent", "arg", "title", "lang", "overflow", "tabindex", "role", "nonce",
          "xmlns", "type"}
SILENT_STARTS = ("data-", "aria-", "on")
ROWS = {"mstack", "mlongdiv", "msgroup", "msrow", "mscarries", "mscarry", "msline", "maligngroup", "malignmark"}
COLUMNS = re.compile(r"[0-9]{1,4}")
STRETCHES_PAST = re.compile(r"\s*[+-]")
PSEUDO_UNITS = re.compile(r"width|height|depth|%")
DECLARATION = re.compile(r"\s*([\w-]+)\s*:\s*([^;]+?)\s*(?:;|$)")
# How many px stand between the lines of an `menclose` and what it encloses; a circle cuts corners.
PADDING, PADDING_OF_A_CIRCLE = 3, 6


class Told:
    """What had no effect: each kind with how often it was met, and where first."""

    def __init__(self):
        self.counts = Counter()
        self.places = {}

    def add(self, kind, place):
        self.counts[kind] += 1
        self.places.setdefault(kind, place)

    def lines(self):
        """A line for each kind, in the order in which they were met."""
        return [f"{self.places[kind]}: {kind}" + (f" ({count} times; this is the first)" if count > 1 else "")
                for kind, count in self.counts.items()]


def modern(node, told):
    """The formula as MathML Core."""
    return Converter(told).element(node, None, 1)


class Converter:
    """Makes elements anew, from the topmost one down."""

    def __init__(self, told):
        self.told = told

    def element(self, node, variant, level, annotated=False):
        """The element that stands for a node; `variant` is the `mathvariant` that the elements above ask for."""
        if level > MOST_LEVELS + 1:
            return node
        made = Node(node.place, node.name, dict(node.attributes), list(node.children))
        annotated = annotated or node.name in ("annotation", "annotation-xml")
        if annotated:
            made.children = [self.element(kid, None, level + 1, True) if isinstance(kid, Node) else kid for kid in made.children]
            return made
        self.attributes(made)
        variant = self.variant(made, variant)
        if made.name in TOKENS:
            return self.token(made, variant)
        if made.name in ("math", "mstyle"):
            made.attributes.pop("mathvariant", None)
        made.children = [self.element(kid, variant, level + 1) if isinstance(kid, Node) else kid for kid in made.children]
        return self.shaped(made)

    def attributes(self, node):
        """Brings attributes into the words of Core, and tells of those without effect."""
        for old, new in OLD_NAMES.items():
            if old in node.attributes:
                node.attributes.setdefault(new, node.attributes.pop(old))
        weight, style = node.attributes.pop("fontweight", ""), node.attributes.pop("fontstyle", "")
        if weight or style:
            words = [word for word in (weight, style) if word in ("bold", "italic")]
            node.attributes.setdefault("mathvariant", "-".join(words) or "normal")
        self.style(node)
        for name, value in list(node.attributes.items()):
            if name in LENGTHS:
                words = WORDS.get(name, {})
                word = value.strip(WHITE)
                node.attributes[name] = words.get(word) or SPACES.get(word, value)
            if self.has_no_effect(node, name):
                self.told.add(f"`{name}` on <{node.name}> has no effect", node.place)

    def has_no_effect(self, node, name):
        if name in EVERYWHERE or name in SILENT or name.startswith(SILENT_STARTS) or ":" in name:
            return False
        return name != "style" and name not in EFFECTS.get(node.name, ())

    def style(self, node):
        """Takes the colours of a `style` over, and tells of the rest."""
        for name, value in DECLARATION.findall(node.attributes.get("style", "")):
            name = {"color": "mathcolor", "background-color": "mathbackground", "background": "mathbackground"}.get(name.lower())
            if name:
                node.attributes.setdefault(name, value)
            else:
                self.told.add("a `style` other than colours has no effect", node.place)

    def variant(self, node, above):
        """The variant that holds for an element."""
        word = node.attributes.get("mathvariant", "").strip(WHITE).lower()
        if not word:
            return above
        if word not in letters.VARIANTS:
            self.told.add(f"`mathvariant` {word} has no letters of mathematics", node.place)
            return above
        return word

    def token(self, node, variant):
        """A token in the letters that its variant asks for."""
        children = []
        for kid in node.children:
            if isinstance(kid, Node) and kid.name == "mglyph":
                self.told.add("<mglyph> is shown as its `alt`", kid.place)
                kid = (kid.place, kid.attributes.get("alt", ""))
            elif isinstance(kid, Node) and kid.name in ("malignmark", "maligngroup"):
                self.told.add(f"<{kid.name}> has no effect", kid.place)
                continue
            children.append(kid)
        node.children = children
        text = "".join(kid[1] for kid in children if not isinstance(kid, Node)).strip(WHITE)
        lone = node.name == "mi" and len(text) == 1
        if variant == "normal":
            node.attributes.pop("mathvariant", None)
            if lone:
                node.attributes["mathvariant"] = "normal"
        elif variant or lone and text in letters.LEFT_UPRIGHT:
            node.attributes.pop("mathvariant", None)
            if not (lone and variant in ("italic", None) and text not in letters.LEFT_UPRIGHT):
                node.children = [kid if isinstance(kid, Node) else (kid[0], letters.letters(variant or "italic", kid[1]))
                                 for kid in children]
        return node

    def shaped(self, node):
        """The elements that Core hasn't, as those that it has."""
        maker = getattr(self, f"of_{node.name}", None)
        if node.name in ROWS:
            self.told.add(f"<{node.name}> is laid out as a row", node.place)
        return maker(node) if maker else node

    def of_mfenced(self, node):
        """A row of fences, and of what they enclose with separators between."""
        attributes = node.attributes
        opening, closing = attributes.pop("open", "("), attributes.pop("close", ")")
        separators = [sign for sign in attributes.pop("separators", ",") if sign not in WHITE]
        inside = []
        for place, kid in enumerate(kids_of(node)):
            if place and separators:
                inside.append(operator(node, separators[min(place, len(separators)) - 1], {"form": "infix"}))
            inside.append(kid)
        opened = [operator(node, opening, {"form": "prefix", "stretchy": "true", "symmetric": "true"})] if opening.strip() else []
        closed = [operator(node, closing, {"form": "postfix", "stretchy": "true", "symmetric": "true"})] if closing.strip() else []
        return Node(node.place, "mrow", attributes, [*opened, *inside, *closed])

    def of_menclose(self, node):
        """A root, or a row with room round it, in which the picture draws its lines."""
        notation = node.attributes.get("notation", "longdiv").split()
        if notation == ["radical"]:
            node.attributes.pop("notation", None)
            return Node(node.place, "msqrt", node.attributes, node.children)
        node.attributes["notation"] = " ".join(notation)
        content = Node(node.place, "mrow", {}, node.children)
        for _ in range(PADDING_OF_A_CIRCLE if "circle" in notation else PADDING):
            content = Node(node.place, "merror", {}, [content])
        node.children = [content]
        return node

    def of_mfrac(self, node):
        """A bevelled fraction is a row with a slash."""
        kids = kids_of(node)
        if node.attributes.pop("bevelled", "").strip().lower() != "true" or len(kids) != 2:
            return node
        node.attributes.pop("linethickness", None)
        return Node(node.place, "mrow", node.attributes, [kids[0], operator(node, "/", {"lspace": "0", "rspace": "0"}), kids[1]])

    def of_mpadded(self, node):
        """A width that grows by a length is a space behind the content; other increments have no effect."""
        grown = node.attributes.get("width", "").strip(WHITE)
        for name in ("width", "height", "depth"):
            value = node.attributes.get(name, "").strip(WHITE)
            if STRETCHES_PAST.match(value) or PSEUDO_UNITS.search(value):
                del node.attributes[name]
                if name != "width" or not grown.startswith("+") or PSEUDO_UNITS.search(grown):
                    self.told.add(f"`{name}` of <mpadded> that counts from the content's has no effect", node.place)
                else:
                    node.children = [*node.children, Node(node.place, "mspace", {"width": grown[1:].strip()}, [])]
        return node

    def of_mtable(self, node):
        """The labels of rows stand in a column behind the others."""
        rows = [kid for kid in kids_of(node) if kid.name in ("mtr", "mlabeledtr")]
        if any(row.name == "mlabeledtr" for row in rows):
            count = max(columns_of(cells_of(row)) for row in rows)
            for row in rows:
                if row.name == "mlabeledtr" and (cells := kids_of(row)):
                    empty = [Node(row.place, "mtd", {}, []) for _ in range(count - columns_of(cells[1:]))]
                    row.name, row.children = "mtr", [*cells[1:], *empty, cells[0]]
        return node

    def of_mover(self, node):
        return self.accented(node, ("accent",))

    def of_munder(self, node):
        return self.accented(node, ("accentunder",))

    def of_munderover(self, node):
        return self.accented(node, ("accentunder", "accent"))

    def accented(self, node, names):
        """An accent that its operator says it is, as MathML 3 reads it."""
        for name, kid in zip(names, kids_of(node)[1:]):
            while kid.name in ("mrow", "mstyle") and len(kids_of(kid)) == 1:
                kid = kids_of(kid)[0]
            if name not in node.attributes and kid.name == "mo" and kid.attributes.get("accent", "").strip().lower() == "true":
                node.attributes[name] = "true"
        return node


def cells_of(row):
    """The cells of a row of a table, without its label."""
    return kids_of(row)[row.name == "mlabeledtr" :]


def columns_of(cells):
    """How many columns cells cover, as the program counts them."""
    return sum(min(int(text), 64) or 1 if COLUMNS.fullmatch(text := cell.attributes.get("columnspan", "")) else 1 for cell in cells)


def kids_of(node):
    """The elements below a node; other text than white space is a fault."""
    for kid in node.children:
        if not isinstance(kid, Node) and kid[1].strip(WHITE):
            raise Fault(f"{kid[0]}: text inside <{node.name}>, which may have elements alone")
    return [kid for kid in node.children if isinstance(kid, Node)]


def operator(node, text, attributes):
    """An operator that stands where a node stands."""
    return Node(node.place, "mo", attributes, [(node.place, text)])
