"""The kinds of elements, which their names decide, and groups of them. Every unknown name is of the kind UNKNOWN."""

UNKNOWN = "unknown element"

NAMES = frozenset(
    """annotation annotation-xml maction math merror mfrac mi mmultiscripts mn mo mover mpadded mphantom mprescripts mroot mrow ms
    mspace msqrt mstyle msub msubsup msup mtable mtd mtext mtr munder munderover semantics""".split()
)

# Text elements have a text and no children, all others have children and no text.
TEXT_ELEMENTS = frozenset("annotation mi mn mo ms mtext".split())
ANNOTATIONS = frozenset("annotation annotation-xml".split())
SCRIPTED = frozenset("msub msup msubsup munder mover munderover mmultiscripts".split())

# Elements that are embellished where their first child is.
LED_BY_BASE = SCRIPTED | {"mfrac"}
# Grouping elements, and with them those that are space-like or embellished by all their children in flow.
GROUPING = frozenset("maction math merror mphantom mprescripts mrow mstyle semantics".split()) | {UNKNOWN}
JUDGED_BY_ALL = GROUPING | {"mpadded"}
# Elements whose first and last operators are fences.
FENCED = JUDGED_BY_ALL | {"msqrt", "mtd"}
# Elements that are space-like by themselves.
BLANK = frozenset("mspace mtext".split())

# Of the children of these only the first may be in flow, and of those of the others none is.
SHOW_FIRST = frozenset("maction semantics".split())
SHOW_NONE = ANNOTATIONS | frozenset("mi mn mo ms mspace mtext".split())


def kind_of(name):
    """Names are compared exactly."""
    return name if name in NAMES else UNKNOWN
