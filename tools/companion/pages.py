"""Finds the formulas of a page within its text, so that each can be replaced. One that is broken is told, and the others go on."""

import codecs
import re
from dataclasses import dataclass

from companion.command import Fault
from companion.mathml import CHARSET, PageReader

# Elements of HTML that no formula has: where one begins, the formula before it wasn't closed.
BREAKS_OUT = set("b big blockquote body br center code dd div dl dt em embed h1 h2 h3 h4 h5 h6 head hr i img li listing menu meta nobr ol "
                 "p pre ruby s small span strong strike sub sup table tt u ul var".split())
# What shows no formula: text alone, and what a picture keeps within.
TEXT_ALONE = {"title", "textarea", "metadata"}
XML_START = re.compile(r"\ufeff?\s*<\?xml\b")
XML_ENCODING = re.compile(rb"""^<\?xml[^>]*encoding\s*=\s*["']([A-Za-z0-9_.:-]+)""")


@dataclass
class Found:
    """A formula of a page: where its text begins and ends, and its element, or what is wrong with it."""

    start: int
    end: int
    node: object = None
    fault: Fault | None = None


class SpanReader(PageReader):
    """Reads a page, and notes where each formula begins and ends."""

    def __init__(self, path, text):
        super().__init__(path)
        self.page = text
        self.lines = [0, *(match.end() for match in re.finditer("\n", text))]
        self.found = []
        self.begin = None
        self.fault = None
        self.skipping = None
        self.body = None

    def here(self):
        line, column = self.getpos()
        return self.lines[line - 1] + column

    def handle_starttag(self, tag, attrs):
        if self.formulas.open and self.local(tag) in BREAKS_OUT and not self.in_annotation():
            self.give_up(Fault(f"{self.place()}: <{tag}> stands in the formula that begins in line {self.first().place.line}, which "
                               "isn't closed before it"))
        if self.skipping or tag in TEXT_ALONE and not self.formulas.open:
            self.skipping = self.skipping or tag
            return
        if tag == "body" and self.body is None:
            self.body = self.here() + len(self.get_starttag_text())
        before = bool(self.formulas.open)
        super().handle_starttag(tag, attrs)
        if not before and self.formulas.open:
            self.begin = self.here()

    def in_annotation(self):
        return any(node.name in ("annotation-xml", "annotation") for node in self.formulas.open)

    def first(self):
        return self.formulas.open[0]

    def give_up(self, fault):
        """Tells of the formula that is open, which ends here."""
        self.found.append(Found(self.begin, self.here(), None, fault))
        self.formulas.open.clear()

    def handle_startendtag(self, tag, attrs):
        if self.skipping:
            return
        super().handle_startendtag(tag, attrs)

    def handle_endtag(self, tag):
        if self.skipping:
            self.skipping = None if tag == self.skipping else self.skipping
            return
        if not self.formulas.open:
            return
        count = len(self.formulas.found)
        try:
            super().handle_endtag(tag)
        except Fault as fault:
            self.give_up(fault)
        if len(self.formulas.found) > count:
            place = self.here()
            end = place + len(self.get_starttag_text()) if self.page[place:place + 2] != "</" else self.page.index(">", place) + 1
            self.found.append(Found(self.begin, end, self.formulas.found[-1]))

    def handle_data(self, data):
        if not self.skipping:
            super().handle_data(data)


def formulas_in(path, text):
    """All formulas of a page's text, in its order, and where its body begins, if it has one."""
    working, broken = text, []
    while True:
        reader = SpanReader(path, working)
        try:
            reader.feed(working)
            reader.close()
        except AssertionError as fault:
            raise Fault(f"{reader.place()}: isn't HTML: {fault}") from None
        if not reader.formulas.open:
            return sorted([*reader.found, *broken], key=lambda found: found.start), reader.body
        # The last one isn't closed: what stands in it is read without its start.
        begin, node = reader.begin, reader.first()
        end = working.index(">", begin) + 1
        broken.append(Found(begin, end, None, Fault(f"{node.place}: the formula that begins here isn't closed")))
        working = working[:begin] + " " * (end - begin) + working[end:]


def page_text(path, data):
    """The text of a page, the encoding in which it is written, and whether it is XML; raises a Fault."""
    if data.startswith((codecs.BOM_UTF16_LE, codecs.BOM_UTF16_BE)):
        name = "utf-16"
    elif found := XML_ENCODING.match(data[:200].removeprefix(codecs.BOM_UTF8).lstrip()) or CHARSET.search(data[:4096]):
        name = found[1].decode("ascii")
    else:
        name = "utf-8"
    if data.startswith(codecs.BOM_UTF8):
        name = "utf-8-sig"
    try:
        text = data.decode(name)
    except (UnicodeError, LookupError) as fault:
        raise Fault(f"{path}: isn't text: {fault}") from None
    return text, name, bool(XML_START.match(text))
