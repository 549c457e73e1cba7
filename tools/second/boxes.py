"""Boxes, in units of 1/1024 px, measured from the start of their baseline."""

from typing import NamedTuple

from .numbers import halved, is_stored


class Box(NamedTuple):
    """Ascents count upward and descents downward. The accent is how far to the right an accent is attached."""

    width: int = 0
    ascent: int = 0
    descent: int = 0
    ink_ascent: int = 0
    ink_descent: int = 0
    italic: int = 0
    accent: int = 0

    def raised(self, height):
        """The box where its baseline stands that far above another one, measured from there."""
        return self._replace(
            ascent=self.ascent + height,
            descent=self.descent - height,
            ink_ascent=self.ink_ascent + height,
            ink_descent=self.ink_descent - height,
        )

    def joined(self, other):
        """Both on one baseline: the larger of each measure up and down, and the width, italic and accent of this one."""
        return self._replace(
            ascent=max(self.ascent, other.ascent),
            descent=max(self.descent, other.descent),
            ink_ascent=max(self.ink_ascent, other.ink_ascent),
            ink_descent=max(self.ink_descent, other.ink_descent),
        )

    def of_width(self, width):
        """As high and as deep, with that width, without italic correction, and the accent in the middle."""
        return self._replace(width=width, italic=0, accent=halved(width))

    def is_stored(self):
        return all(map(is_stored, self))


EMPTY = Box()


def all_joined(boxes):
    """All boxes of a list on one baseline, with the first one's width, italic and accent; without any, a box of zeros."""
    if not boxes:
        return EMPTY
    whole = boxes[0]
    return whole._replace(
        ascent=max(box.ascent for box in boxes),
        descent=max(box.descent for box in boxes),
        ink_ascent=max(box.ink_ascent for box in boxes),
        ink_descent=max(box.ink_descent for box in boxes),
    )
