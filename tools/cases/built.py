"""Fractions, roots, scripts and limits, over boxes."""

from second import fraction as fractions
from second import limits, multiscripts, radicals
from second import scripts as beside

from .boxes import box_in, box_of, flag_in, is_list, items_of, mark_words, metrics_of, numbers, size_in, told
from .faults import wrong_type
from .values import Fields

# The most that a length attribute can give, on both sides of 0.
MOST_LENGTH = 10**9 * 2**32
CASES = (limits.LARGE, limits.STRETCHY, limits.PLAIN)


def fraction(known, value):
    """A numerator over a denominator."""
    fields = Fields(value, "metrics", "top", "bottom", "thickness", "display", "size")
    metrics, size = metrics_of(known, fields), size_in(fields)
    top, bottom = box_of(fields, "top"), box_of(fields, "bottom")
    thickness = fields.within("thickness", -MOST_LENGTH, MOST_LENGTH)
    made = fractions.fraction(metrics, top, bottom, thickness, fields.flag("display"), size)
    rule = mark_words(metrics, made.rule) if made.rule else "none"
    return told(numbers(made.box), numbers(made.top), numbers(made.bottom), rule)


def square_root(known, value):
    """A root over a row."""
    fields = Fields(value, "metrics", "base", "display", "size")
    metrics, size = metrics_of(known, fields), size_in(fields)
    return root_words(metrics, radicals.square_root(metrics, box_of(fields, "base", wide=True), fields.flag("display"), size))


def root_with_index(known, value):
    """A root with an index."""
    fields = Fields(value, "metrics", "base", "index", "display", "size")
    metrics, size = metrics_of(known, fields), size_in(fields)
    base, index = box_of(fields, "base"), box_of(fields, "index")
    return root_words(metrics, radicals.root_with_index(metrics, base, index, fields.flag("display"), size))


def root_words(metrics, root):
    """The box, the surd, the places of index and base, and the rule."""
    surd, rule = (mark_words(metrics, mark) for mark in root.marks)
    return told(numbers(root.box), surd, numbers(root.index), numbers(root.base), rule)


def sub(known, value):
    """A base with a subscript."""
    fields = Fields(value, "metrics", "base", "large", "script", "size")
    metrics, size = metrics_of(known, fields), size_in(fields)
    base, is_large, script = box_of(fields, "base"), fields.flag("large"), box_of(fields, "script")
    return scripted_words(beside.with_sub(metrics, base, is_large, script, size))


def sup(known, value):
    """A base with a superscript."""
    fields = Fields(value, "metrics", "base", "large", "cramped", "script", "size")
    metrics, size = metrics_of(known, fields), size_in(fields)
    base, is_large, is_cramped = box_of(fields, "base"), fields.flag("large"), fields.flag("cramped")
    return scripted_words(beside.with_sup(metrics, base, is_large, is_cramped, box_of(fields, "script"), size))


def sub_sup(known, value):
    """A base with both."""
    fields = Fields(value, "metrics", "base", "large", "cramped", "sub", "sup", "size")
    metrics, size = metrics_of(known, fields), size_in(fields)
    base, is_large, is_cramped = box_of(fields, "base"), fields.flag("large"), fields.flag("cramped")
    scripts = box_of(fields, "sub"), box_of(fields, "sup")
    return scripted_words(beside.with_sub_and_sup(metrics, base, is_large, is_cramped, *scripts, size))


def scripted_words(made):
    """The box, and the places of both scripts."""
    return told(numbers(made.box), numbers(made.sub), numbers(made.sup))


def multi(known, value):
    """A base with pairs of scripts before and behind it."""
    fields = Fields(value, "metrics", "base", "large", "cramped", "pairs", "size")
    metrics, size = metrics_of(known, fields), size_in(fields)
    base, is_large, is_cramped = box_of(fields, "base"), fields.flag("large"), fields.flag("cramped")
    pairs = [pair_in(item) for item in items_of(fields, "pairs")]
    made = multiscripts.multi(metrics, base, is_large, is_cramped, pairs, size)
    return told(numbers(made.box), numbers(made.base), *map(numbers, made.scripts))


def pair_in(item):
    """A pair of scripts, and whether it stands before the base."""
    if not is_list(item) or len(item) != 3:
        raise wrong_type("pairs")
    return multiscripts.Pair(box_in("pairs", item[0]), box_in("pairs", item[1]), flag_in("pairs", item[2]))


def under_over(known, value):
    """A base with limits."""
    fields = Fields(value, "metrics", "base", "under", "over", "case", "accent", "accentunder", "size")
    metrics, size = metrics_of(known, fields), size_in(fields)
    base = box_of(fields, "base")
    under, over = (box_of(fields, key) if fields.has(key) else None for key in ("under", "over"))
    case, accent, accentunder = fields.choice("case", CASES), fields.flag("accent"), fields.flag("accentunder")
    made = limits.with_limits(metrics, base, under, over, case, accent, accentunder, size)
    return told(numbers(made.box), numbers(made.base), numbers(made.under), numbers(made.over))


KINDS = {
    "fraction": fraction,
    "square_root": square_root,
    "root_with_index": root_with_index,
    "sub": sub,
    "sup": sup,
    "sub_sup": sub_sup,
    "multi": multi,
    "under_over": under_over,
}
