#!/usr/bin/env python3
"""Makes a tree file of a formula in MathML.

    mathml_tree.py [FILE] [--number K | --all] [--as-it-is] [-o FILE]

FILE (or else standard input) is a MathML file, or an HTML page with formulas, of which the first is taken, or the Kth; how many
there are is told. With --all, the output has a line for each formula. A file that begins with `<?xml` or with an element `math`
is read as XML, every other one as HTML. Named characters (`&alpha;`), comments, CDATA and prefixes of namespaces are
understood in both; nothing is fetched and no other file is read.

What MathML Core hasn't is made into what it has, as far as can be: `mfenced`, `mathvariant`, `menclose`, `mlabeledtr` and more.
docs/MATHML.md has the list of what has an effect; what has none is told once for each kind. --as-it-is leaves it all out.

The tree is the format's canonical JSON. Other elements and attributes are kept as they are, but for declarations of namespaces;
annotations are kept too. White space between elements is dropped. The format gives text to `mtext`, `mi`, `mn`, `mo`, `ms` and
`annotation` alone: other text is refused, but inside an `annotation-xml` (which is never shown) it becomes an `mtext`.

What the format refuses is told with its line and column: text or elements where none may stand, names that aren't in its form,
more than 60 levels, 65,536 elements, 65,536 bytes in a text, or 4,194,304 bytes in all.
"""

import sys

from companion import command, drawing
from companion.mathml import read_formulas
from companion.trees import made_tree


def main(argv=None):
    parser = command.parser_of("mathml_tree", __doc__)
    parser.add_argument("file", metavar="FILE", nargs="?", help="standard input where left out")
    drawing.add_choice(parser)
    parser.add_argument("--as-it-is", action="store_true", help="keep elements and attributes as they are")
    return command.run(parser, work, argv)


def work(words):
    """The bytes of the tree file."""
    if words.file is None:
        path, data = "standard input", command.standard(sys.stdin, "input").read()
    else:
        path, data = words.file, command.read(words.file)
    nodes = drawing.chosen("mathml_tree", path, read_formulas(path, data), words)
    trees = [made_tree(node) for node in nodes] if words.as_it_is else drawing.trees_of("mathml_tree", nodes)
    return "".join(tree.text() for tree in trees).encode()


if __name__ == "__main__":
    sys.exit(main())
