"""From a formula to its picture: what the tools that draw have alike."""

import json
import os
import tempfile
from dataclasses import dataclass
from glob import glob
from pathlib import Path

from companion import command, mathml3, needs, program, svg
from companion.command import Fault
from companion.fonts import open_font
from companion.looks import looks_of
from companion.marks import read_marks
from companion.mathml import read_formulas
from companion.metrics import read_drawn
from companion.painted import read_painted
from companion.program import Inputs
from companion.sources import Sources
from companion.trees import Tree, made_tree

TOOLS = Path(__file__).resolve().parent.parent
SAMPLE = TOOLS.parent / "samples" / "latin-modern-math.metrics"
USUAL = [f"{folder}/**/latinmodern-math.otf" for folder in (
    "/usr/share/texmf/fonts/opentype/public/lm-math", "/usr/share/texlive/texmf-dist/fonts/opentype/public/lm-math",
    "/usr/share/fonts", "/usr/local/share/fonts", os.path.expanduser("~/.fonts"), os.path.expanduser("~/.local/share/fonts"))]


def add_words(parser):
    """The options of each tool that draws."""
    parser.add_argument("--fallback", metavar="FONT", action="append", default=[], help="as font_metrics.py was given it")
    parser.add_argument("--program", metavar="COMMAND", help=program.HELP)


@dataclass
class Studio:
    """The metrics, the fonts and the program with which formulas are drawn."""

    tool: str
    metrics: str
    drawn: object
    outlines: svg.Outlines
    program: list

    def picture(self, formula, prefix="g"):
        """The picture of a formula as the program paints it, and the lines of its boxes and marks; raises a Fault."""
        lines, painted = self.ask("layout", formula), self.ask("paint", formula)
        self.tell_of_lacks(formula)
        return svg.picture_of(read_marks(lines), self.outlines, prefix, looks_of(formula.root), read_painted(painted)), lines

    def ask(self, verb, formula):
        """What the program writes for a formula; raises a Fault."""
        if formula.file:
            return program.run(self.program, verb, Inputs(self.metrics, formula.file))
        try:
            with tempfile.NamedTemporaryFile(suffix=".json") as tree:
                tree.write(formula.tree.text().encode())
                tree.flush()
                inputs = Inputs(self.metrics, tree.name, None, str(formula.tree.places[0]), formula.tree.place)
                return program.run(self.program, verb, inputs)
        except OSError as fault:
            raise Fault(f"{formula.name}: its tree can't be written: {command.reason(fault)}") from None

    def tell_of_lacks(self, formula, told=None):
        """Names each character that the metrics lack, with its element; one that was told before isn't told again."""
        for lack in needs.lacking(formula.root, self.drawn.characters, formula.place):
            if told is None or lack.code not in told:
                command.warn(self.tool, f"{lack}: a box is drawn; font_metrics.py --fallback FONT takes it from another font")
            if told is not None:
                told.add(lack.code)


def add_fonts(parser):
    """The options of a tool that takes the metrics and the font of the samples where none are named."""
    parser.add_argument("--font", metavar="FONT", help="a font with a MATH table (Latin Modern Math)")
    parser.add_argument("--metrics", metavar="FILE", help="what font_metrics.py made of FONT and the fallback fonts (made by the way)")
    add_words(parser)


def settle_fonts(tool, words, room):
    """Finds the font and the metrics that the words leave out; what has to be made is made in the folder `room`."""
    if words.metrics and not words.font:
        raise Fault(f"--metrics {words.metrics}: name the font too, of which they were made, by --font FONT")
    if words.metrics:
        return
    if not words.font and not words.fallback and SAMPLE.is_file():
        words.font, words.metrics = usual_font(), str(SAMPLE)
        return
    words.font = words.font or usual_font()
    words.metrics = str(Path(room) / "made.metrics")
    import font_metrics
    options = [option for path in words.fallback for option in ("--fallback", path)]
    if font_metrics.main([words.font, *options, "--operators", str(TOOLS / "operators.txt"), "-o", words.metrics]) != 0:
        raise Fault(f"{words.font}: no metrics could be made of it")


def usual_fonts():
    """Latin Modern Math, wherever Debian and TeX Live put it."""
    return [path for pattern in USUAL for path in sorted(glob(pattern, recursive=True))]


def usual_font():
    """The first Latin Modern Math; raises a Fault."""
    for path in usual_fonts():
        return path
    raise Fault("Latin Modern Math isn't here: install Debian's fonts-lmodern, or name a font with a MATH table by --font FONT")


def studio_of(tool, words):
    """What a tool was given; raises a Fault."""
    for path in (words.metrics, words.font, *words.fallback):
        program.check_file(path)
    drawn, font = read_drawn(words.metrics), open_font(words.font)
    if font.upem != drawn.upem:
        raise Fault(f"{words.metrics}: has {drawn.upem} units an em, and {words.font} has {font.upem}: they don't go together")
    sources = Sources([font, *(open_font(path, needs_math=False) for path in words.fallback)])
    return Studio(tool, words.metrics, drawn, svg.Outlines(sources, drawn), program.command_of(words.program))


@dataclass
class Formula:
    """A formula by its name for people: a tree file, or the tree that was made of MathML."""

    name: str
    root: object
    file: str | None = None
    tree: Tree | None = None

    def place(self, number):
        return self.tree.place(number) if self.tree else f"{self.file}: element {number}"


def formulas_of(tool, path, words):
    """The formulas of a file that the words ask for; raises a Fault. Says how many there are, where one of several is taken."""
    program.check_file(path)
    data = command.read(path)
    if data.lstrip().startswith(b"{"):
        try:
            root = json.loads(data)
        except (ValueError, RecursionError):
            root = None
        return [Formula(path, root, path)]
    nodes = chosen(tool, path, read_formulas(path, data), words)
    return [Formula(name, tree.root, None, tree) for name, tree in zip(names(path, nodes, words), trees_of(tool, nodes))]


def names(path, nodes, words):
    """A name for each formula of a file."""
    return [path] if len(nodes) == 1 and not words.all else [f"{path}: formula {number}" for number in range(1, len(nodes) + 1)]


def add_choice(parser):
    """The options that choose among the formulas of a file."""
    parser.add_argument("--number", metavar="K", type=command.whole, default=None, help="the Kth formula of a page, from 1 on")
    parser.add_argument("--all", action="store_true", help="all formulas of a page")


def chosen(tool, path, formulas, words):
    """The formulas that the words ask for, which is the first where they ask for none; raises a Fault."""
    if words.all and words.number:
        raise Fault("--number and --all ask for different things")
    if words.all:
        return formulas
    if words.number and words.number > len(formulas):
        raise Fault(f"{path}: holds no formula {words.number}: it has {len(formulas)}")
    if words.number is None and len(formulas) > 1:
        command.warn(tool, f"{path}: holds {len(formulas)} formulas, of which the first is taken: --number K takes another one, and "
                     "--all takes all")
    return [formulas[(words.number or 1) - 1]]


def trees_of(tool, nodes):
    """The trees of formulas in MathML, and what in them has no effect, told once for each kind; raises a Fault."""
    told = mathml3.Told()
    trees = [made_tree(mathml3.modern(node, told)) for node in nodes]
    for line in told.lines():
        command.warn(tool, line)
    return trees
