"""Which characters a formula shows, and which of them metrics lack."""

import json
import unicodedata
from dataclasses import dataclass

from companion import command, mathml3
from companion.command import Fault
from companion.mathml import read_formulas
from companion.sources import character_name
from companion.trees import TOKENS, WHITE, made_tree

# The letters that an `mi` of one letter shows as italic ones: the first, the last, and what the first becomes.
ITALICS = ((0x41, 0x5A, 0x1D434), (0x61, 0x67, 0x1D44E), (0x68, 0x68, 0x210E), (0x69, 0x7A, 0x1D456), (0x391, 0x3A1, 0x1D6E2),
           (0x3A3, 0x3A9, 0x1D6F4), (0x3B1, 0x3C9, 0x1D6FC))


@dataclass
class Lack:
    """A character that the metrics lack: how often, and the element that needs it first."""

    code: int
    count: int
    element: str
    place: str

    def __str__(self):
        times = f", {self.count} times" if self.count > 1 else ""
        return f"{self.place}: <{self.element}> needs {character_name(self.code)}{times}, which the metrics lack"


def lacking(tree, characters, where):
    """What the shown text of a tree needs that isn't among the characters. `where` gives the place of an element by its id."""
    lacks = {}
    for number, name, codes in shown(tree):
        for code in codes:
            if code in characters:
                continue
            if code in lacks:
                lacks[code].count += 1
            else:
                lacks[code] = Lack(code, 1, name, str(where(number)))
    return list(lacks.values())


def lacking_in_file(path, characters):
    """The lines that tell what the formulas of a file need and the characters lack; raises a Fault."""
    data, lines = command.read(path), []
    if data.lstrip().startswith(b"{"):
        tree = read_tree(path, data)
        return [str(lack) for lack in lacking(tree, characters, lambda number: f"{path}: element {number}")]
    for node in read_formulas(path, data):
        made = made_tree(mathml3.modern(node, mathml3.Told()))
        lines += [str(lack) for lack in lacking(made.root, characters, made.place)]
    return lines


def read_tree(path, data):
    """The value of a tree file; raises a Fault."""
    try:
        return json.loads(data)
    except (ValueError, RecursionError) as fault:
        raise Fault(f"{path}: isn't JSON: {fault}") from None


def shown(tree):
    """The id, the name and the characters of each token element that shows in a tree. A tree may be anything: what isn't in
    the form of one shows nothing."""
    found, number = [], 0

    def walk(element, is_shown):
        nonlocal number
        number += 1
        if not isinstance(element, dict):
            return
        name, children = element.get("name"), element.get("children", [])
        if name in TOKENS:
            text = element.get("text", "")
            if is_shown and name != "annotation" and isinstance(text, str):
                found.append((number, name, codes_of(name, text, element.get("attributes", {}))))
            return
        first = name in ("semantics", "maction")
        for place, child in enumerate(children if isinstance(children, list) else []):
            hidden = name in ("mphantom", "annotation-xml") or first and place > 0
            walk(child, is_shown and not hidden)

    walk(tree, True)
    return found


def codes_of(name, text, attributes):
    """The characters that a token shows: without white space at its ends, in NFC, and a lone letter of an `mi` in italics."""
    flat = unicodedata.normalize("NFC", " ".join(word for word in split_white(text)))
    codes = [ord(letter) for letter in flat]
    variant = attributes.get("mathvariant", "") if isinstance(attributes, dict) else ""
    if name == "mi" and len(codes) == 1 and str(variant).lower() != "normal":
        codes = [italic(codes[0])]
    return codes


def split_white(text):
    """The pieces of a text between white space."""
    for letter in WHITE:
        text = text.replace(letter, " ")
    return filter(None, text.split(" "))


def italic(code):
    """The italic form of a letter, or the character itself."""
    return next((code - first + start for first, last, start in ITALICS if first <= code <= last), code)
