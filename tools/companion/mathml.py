"""Reads MathML: a file of its own, or the formulas inside an HTML page. Nothing is fetched and no other file is read."""

import codecs
import re
from dataclasses import dataclass, field
from html.entities import html5
from html.parser import HTMLParser
from xml.parsers import expat

from companion.command import Fault

MATHML = "http://www.w3.org/1998/Math/MathML"
PREDEFINED = {"lt", "gt", "amp", "quot", "apos"}
VOID = {"area", "base", "br", "col", "embed", "hr", "img", "input", "link", "meta", "source", "track", "wbr"}
PROLOGUE = re.compile(r"\ufeff?(?:\s+|<!--.*?-->|<\?.*?\?>)*", re.DOTALL)
FIRST_IS_MATH = re.compile(r"<(?:!DOCTYPE\s+)?(?:[\w.-]+:)?math\b")
CHARSET = re.compile(rb"""<meta[^>]*charset\s*=\s*["']?\s*([A-Za-z0-9_:.-]+)""", re.IGNORECASE)


@dataclass
class Place:
    """Where something stands in a file; lines and columns are counted from 1."""

    path: str
    line: int
    column: int

    def __str__(self):
        return f"{self.path}:{self.line}:{self.column}"


@dataclass
class Node:
    """An element of a formula; texts stand among its children as (place, text)."""

    place: Place
    name: str
    attributes: dict
    children: list = field(default_factory=list)


class Formulas:
    """Puts elements and texts together, and keeps the elements `math` that stand in no other."""

    def __init__(self, path):
        self.path = path
        self.found = []
        self.open = []

    def start(self, place, name, attributes):
        if self.open or name == "math":
            node = Node(place, name, attributes)
            if self.open:
                self.open[-1].children.append(node)
            self.open.append(node)

    def end(self, place, name):
        if not self.open:
            return
        if self.open[-1].name != name:
            last = self.open[-1]
            raise Fault(f"{place}: </{name}> comes where <{last.name}> of line {last.place.line} isn't closed")
        node = self.open.pop()
        if not self.open:
            self.found.append(node)

    def text(self, place, text):
        if self.open and text:
            self.open[-1].children.append((place, text))

    def whole(self):
        """All formulas, once the file is at its end; raises a Fault where one isn't closed, and where there is none."""
        if self.open:
            raise Fault(f"{self.open[0].place}: the formula that begins here isn't closed")
        if not self.found:
            raise Fault(f"{self.path}: holds no formula: it has no element math")
        return self.found


def read_formulas(path, data):
    """The formulas of a file's bytes, in document order; raises a Fault."""
    return read_xml(path, data) if is_xml(data) else read_page(path, data)


def is_xml(data):
    """Whether a file says that it is XML, or begins with a formula."""
    start = text_of_start(data)
    return start.lstrip("\ufeff").startswith("<?xml") or bool(FIRST_IS_MATH.match(start, PROLOGUE.match(start).end()))


def text_of_start(data):
    if data.startswith((codecs.BOM_UTF16_LE, codecs.BOM_UTF16_BE)):
        return data[:65_536].decode("utf-16", "replace")
    return data[:65_536].decode("utf-8", "replace")


# XML

def entity_declarations():
    """Every named character of HTML, of which those of MathML are a part, for a parser of XML."""
    names = {name.rstrip(";"): text for name, text in html5.items() if name.endswith(";")}
    return "".join(
        f'<!ENTITY {name} "{"".join(f"&#38;#{ord(letter)};" for letter in text)}">\n'
        for name, text in names.items() if name not in PREDEFINED)


class XmlReader:
    """Hands what expat meets to the formulas."""

    def __init__(self, path):
        self.formulas = Formulas(path)
        self.has_root = False
        self.parser = parser = expat.ParserCreate(namespace_separator=" ")
        parser.namespace_prefixes = True
        parser.UseForeignDTD(True)
        parser.SetParamEntityParsing(expat.XML_PARAM_ENTITY_PARSING_ALWAYS)
        parser.ExternalEntityRefHandler = self.external
        parser.SkippedEntityHandler = self.skipped
        parser.StartElementHandler = self.start
        parser.EndElementHandler = self.end
        parser.CharacterDataHandler = self.text

    def place(self):
        return Place(self.formulas.path, self.parser.CurrentLineNumber, self.parser.CurrentColumnNumber + 1)

    def external(self, context, _base, _system, _public):
        """In place of any outer declarations the named characters are declared; outer texts are refused."""
        if self.has_root:
            raise Fault(f"{self.place()}: a text from another file isn't read")
        self.parser.ExternalEntityParserCreate(context).Parse(entity_declarations(), True)
        return 1

    def skipped(self, name, is_parameter):
        if not is_parameter:
            raise Fault(f"{self.place()}: the entity &{name}; isn't known")

    def start(self, name, attributes):
        self.has_root = True
        self.formulas.start(self.place(), element_name(name), {attribute_name(key): value for key, value in attributes.items()})

    def end(self, name):
        self.formulas.end(self.place(), element_name(name))

    def text(self, text):
        self.formulas.text(self.place(), text)


def element_name(name):
    """An element of MathML, or of no namespace, has its local name; another one keeps its prefix."""
    space, local, prefix = parts_of(name)
    return f"{prefix}:{local}" if prefix and space != MATHML else local


def attribute_name(name):
    _, local, prefix = parts_of(name)
    return f"{prefix}:{local}" if prefix else local


def parts_of(name):
    """Namespace, local name and prefix of a name as expat writes it."""
    words = name.split(" ")
    return ("", words[0], "") if len(words) == 1 else (words[0], words[1], words[2] if len(words) > 2 else "")


def read_xml(path, data):
    reader = XmlReader(path)
    try:
        reader.parser.Parse(data, True)
    except expat.ExpatError as fault:
        place = Place(path, fault.lineno, fault.offset + 1)
        raise Fault(f"{place}: isn't XML: {expat.ErrorString(fault.code)}") from None
    except (ValueError, LookupError) as fault:
        raise Fault(f"{path}: isn't XML: {fault}") from None
    return reader.formulas.whole()


# HTML

class PageReader(HTMLParser):
    """Hands the formulas of an HTML page to Formulas."""

    def __init__(self, path):
        super().__init__(convert_charrefs=True)
        self.formulas = Formulas(path)
        self.prefix = ""

    def place(self):
        line, column = self.getpos()
        return Place(self.formulas.path, line, column + 1)

    def local(self, tag):
        """A name without the prefix that its formula begins with."""
        if not self.formulas.open and tag.endswith(":math"):
            self.prefix = tag.removesuffix("math")
        return tag.removeprefix(self.prefix)

    def handle_starttag(self, tag, attrs):
        named = {}
        for name, value in attrs:
            if name != "xmlns" and not name.startswith("xmlns:"):
                named.setdefault(name, value or "")
        name = self.local(tag)
        self.formulas.start(self.place(), name, named)
        if name in VOID:
            self.formulas.end(self.place(), name)

    def handle_startendtag(self, tag, attrs):
        self.handle_starttag(tag, attrs)
        if self.local(tag) not in VOID:
            self.handle_endtag(tag)

    def handle_endtag(self, tag):
        name = self.local(tag)
        if name not in VOID:
            self.formulas.end(self.place(), name)

    def handle_data(self, data):
        self.formulas.text(self.place(), data)

    def unknown_decl(self, data):
        """A marked section; a formula may have CDATA."""
        if data.startswith("CDATA["):
            self.formulas.text(self.place(), data.removeprefix("CDATA["))


def read_page(path, data):
    reader = PageReader(path)
    try:
        reader.feed(decode_page(path, data))
        reader.close()
    except AssertionError as fault:
        raise Fault(f"{reader.place()}: isn't HTML: {fault}") from None
    return reader.formulas.whole()


def decode_page(path, data):
    """The text of a page by its byte order mark, its `meta charset`, or as UTF-8."""
    if data.startswith((codecs.BOM_UTF16_LE, codecs.BOM_UTF16_BE)):
        name = "utf-16"
    elif found := CHARSET.search(data[:4096]):
        name = found[1].decode("ascii")
    else:
        name = "utf-8"
    try:
        return data.decode("utf-8-sig" if name.lower() in ("utf-8", "utf8") else name)
    except (UnicodeError, LookupError) as fault:
        raise Fault(f"{path}: isn't text: {fault}") from None
