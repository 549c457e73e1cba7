"""`row_wave_one`, `row_wave_two`, `row_finish`: what rows ask of their children, and where they set them. Limits ask
in the same words: `limit_wave_one`, `limit_wave_two`."""

from second import limits, rows

from .boxes import MOST_ITEMS, box_in, boxes_of, flag_in, is_list, items_of, numbers, pull_of, stored_in, told
from .faults import Undetermined, out_of_range, wrong_type
from .values import Fields

AXES = {"b": "block", "i": "inline", "-": None}


def axes_of(fields):
    """The axes along which children stretch, a letter for each."""
    letters = fields.text("kids")
    if len(letters) > MOST_ITEMS or not set(letters) <= set(AXES):
        raise out_of_range("kids")
    return [AXES[letter] for letter in letters]


def wave_one(first):
    """The first wave, by the function that says what it asks."""

    def asked(_known, value):
        fields = Fields(value, "kids", "own")
        return asks(first_of(first, axes_of(fields), pull_of(fields, "own")))

    return asked


def wave_two(first, second):
    """The second wave, from the answers to the first."""

    def asked(_known, value):
        fields = Fields(value, "kids", "own", "first")
        axes, own, boxes = axes_of(fields), pull_of(fields, "own"), boxes_of(fields, "first")
        if len(boxes) != len(first_of(first, axes, own)):
            raise Undetermined("the first wave asks another number of children")
        return asks(second(axes, own, boxes))

    return asked


def first_of(first, axes, own):
    """What a first wave asks; without children it asks none."""
    return first(axes, own) if axes else []


def asks(questions):
    """Each child that is asked, with its pull."""
    return told(*(numbers([kid, *(pull or ["free"])]) for kid, pull in questions)) or "-"


def row_finish(_known, value):
    """Children side by side."""
    fields = Fields(value, "kids", "spaces")
    kids = [kid_in(item) for item in items_of(fields, "kids")]
    row = rows.row_of(kids, fields.flag("spaces"))
    return told(numbers(row.box), numbers(row.offsets))


def kid_in(item):
    """A child of a row: its box, its spaces, and whether it is an embellished operator."""
    if not is_list(item) or len(item) != 4:
        raise wrong_type("kids")
    box, before, behind, embellished = item
    spaces = stored_in("kids", before), stored_in("kids", behind)
    return rows.RowKid(box_in("kids", box), *spaces, flag_in("kids", embellished))


KINDS = {
    "row_wave_one": wave_one(rows.first_of_row),
    "row_wave_two": wave_two(rows.first_of_row, rows.second_of_row),
    "row_finish": row_finish,
    "limit_wave_one": wave_one(limits.first_of_limits),
    "limit_wave_two": wave_two(limits.first_of_limits, limits.second_of_limits),
}
