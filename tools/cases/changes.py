"""What changes from one output of a program of cases to another, told case by case."""

from difflib import SequenceMatcher
from itertools import chain, groupby

# What a line begins with that tells what came of the case above it.
OUTCOMES = ("= ", "status ", "sum ", "|", "+")


def changes(stored, expected):
    """The lines that tell what changes between two lists of lines: of a case that both have its own line and what of its
    outcome does, and all lines of any other case."""
    theirs, ours = cases_of(stored), cases_of(expected)
    for is_same, left, right in aligned([case[0] for case in theirs], [case[0] for case in ours]):
        if is_same:
            for before, after in zip(theirs[left], ours[right]):
                yield from changes_of(before, after)
        else:
            yield from exchanged(chain.from_iterable(theirs[left]), chain.from_iterable(ours[right]))


def cases_of(lines):
    """The lines of each case: its own, and those of its outcome. A line of another file stands by itself."""
    cases = []
    for line in lines:
        if cases and line.startswith(OUTCOMES):
            cases[-1].append(line)
        else:
            cases.append([line])
    return cases


def changes_of(before, after):
    """The own line of a case whose outcome changes, and what of that does. As many lines as before are held side by side."""
    if before == after:
        return
    yield " " + before[0]
    if len(before) == len(after):
        for is_same, pairs in groupby(zip(before, after), lambda pair: pair[0] == pair[1]):
            if not is_same:
                yield from exchanged(*zip(*pairs))
    else:
        for is_same, left, right in aligned(before, after):
            if not is_same:
                yield from exchanged(before[left], after[right])


def exchanged(before, after):
    """Lines that are no longer written, behind `-`, and those that are now, behind `+`."""
    yield from ("-" + line for line in before)
    yield from ("+" + line for line in after)


def aligned(before, after):
    """The parts of two lists that belong together, in their order: whether they are the same, and where each has them."""
    for tag, left, left_end, right, right_end in SequenceMatcher(None, before, after).get_opcodes():
        yield tag == "equal", slice(left, left_end), slice(right, right_end)
