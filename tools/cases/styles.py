"""`style`: the style and the font size of an element, from the root down."""

from second.facts import facts_of
from second.styles import child_style, font_size, root_style
from second.tree import Node

from .answers import only_child
from .boxes import MOST_SIZE, metrics_of, numbers
from .faults import Undetermined, out_of_range
from .values import Fields


def style(known, value):
    """The style of the last element of a path."""
    fields = Fields(value, "metrics", "root", "steps")
    metrics = metrics_of(known, fields)
    root = only_child(fields.value("root"))
    steps = [step_in(step) for step in fields.of_type("steps", lambda item: isinstance(item, list))]
    found, parent = root_style(metrics, root), root
    for step in steps:
        if font_size(metrics, found) > MOST_SIZE:
            raise out_of_range("steps")
        found = child_style(metrics, found, family(parent, step), step["index"])
        parent = step["element"]
    size = font_size(metrics, found)
    truths = ["t" if truth else "f" for truth in (found.is_display, found.is_cramped)]
    return numbers([found.base, found.base_depth, found.depth, *truths, size if size <= MOST_SIZE else "none"])


def step_in(value):
    """A step from a parent to a child: the child, its place, and what is said of the place."""
    fields = Fields(value, "element", "index", "accent", "accentunder", "subscript")
    return {
        "element": only_child(fields.value("element")),
        "index": fields.within("index", 0, 65534),
        **{name: fields.flag(name, absent=False) for name in ("accent", "accentunder", "subscript")},
    }


def family(parent, step):
    """The parent with children in flow among which the child stands at its place. Its attributes say whether what
    stands above or below is an accent, and how many children it has says whether its scripts make pairs."""
    place, child = step["index"], step["element"]
    filler = Node(0, "mn", {}, "", ())
    count = place + 1
    if parent.name == "mmultiscripts":
        # Pairs are whole where the children are odd in number; their subscripts stand at odd places.
        has_pairs = step["subscript"] or place % 2 == 0
        count += 1 if (count % 2 == 1) != has_pairs else 0
        if step["subscript"] and place % 2 == 0:
            raise Undetermined("no subscript stands at this place")
    elif step["subscript"]:
        raise Undetermined("no subscript of multiscripts stands in this parent")
    children = [filler] * count
    children[place] = child
    attributes = {name: text for name, text in parent.attributes.items() if name not in ("accent", "accentunder")}
    attributes.update({name: "true" for name in ("accent", "accentunder") if step[name]})
    node = Node(0, parent.name, attributes, "", tuple(children))
    flow = facts_of(node).flow
    if place >= len(flow) or flow[place] is not child:
        raise Undetermined("no child in flow stands at this place")
    return node


KINDS = {"style": style}
