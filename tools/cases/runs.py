"""Runs of the program over inputs and a sink in memory.

What a run writes is the second engine's word. Here stands what becomes of it where calls of the inputs or of the sink
fail, or where the sink has little room. How many calls a run makes is the product's own: only bounds of it follow
from the formats, so a case whose outcome hangs on more is refused."""

import json
from functools import lru_cache
from io import BytesIO

from second import program
from second.metrics_reading import MOST_BYTES as LONGEST_METRICS

from .faults import Undetermined
from .source import MOST_BYTES
from .values import Fields, is_count, is_text

READ_FAULT = 5
WRITE_FAULT = 6


class Files:
    """Known files in memory, and the names of those that were looked for, in their order."""

    def __init__(self, files):
        self.files, self.looked_for = files, []

    def open(self, name):
        self.looked_for.append(name)
        if name not in self.files:
            raise FileNotFoundError(name)
        return BytesIO(self.files[name])


def outcome(words, files):
    """What a run with these words and files gives where no call fails: its status, the bytes it writes, and the names of
    the files in the order in which they are looked for."""
    return outcome_of(tuple(words), tuple(files.items()))


@lru_cache(maxsize=8)
def outcome_of(words, files):
    """Many cases in a row differ only in where reads stop and which calls fail."""
    inputs, written = Files(dict(files)), []
    status = program.run(list(words), inputs, written.append)
    return status, b"".join(written), inputs.looked_for


def run(known, value):
    """The program's words over the known files that are named."""
    fields = Fields(value, "words", "files", "cut", "fail_read", "fail_write", "room", "sum")
    is_sum = fields.flag("sum", absent=False)
    words = fields.items("words", is_text)
    files = {name: known.content(name) for name in fields.items("files", is_text)}
    cuts, failing = fields.items("cut", is_count, absent=[]), fields.items("fail_read", is_count, absent=[])
    room = fields.within("room", 0, MOST_BYTES) if fields.has("room") else MOST_BYTES
    status, text, looked_for = outcome(words, files)
    if status != READ_FAULT:
        status, text = cut_short(words, files, looked_for, cuts, failing, (status, text))
    return told(*written(status, text, fields.items("fail_write", is_count, absent=[]), room), is_sum)


def command(name):
    """A command over known metrics and a tree file that holds a value's text."""

    def carried_out(known, value):
        fields = Fields(value, "metrics", "tree", "sum")
        is_sum = fields.flag("sum", absent=False)
        files = {"metrics": known.content(fields.text("metrics")), "tree": text_of(fields.value("tree"))}
        status, out, _ = outcome([name, *files], files)
        return told(status, out, is_sum)

    return carried_out


def edit(known, value):
    """The command `edit` over known metrics, a tree file that holds a value's text and a script that holds values' texts."""
    fields = Fields(value, "metrics", "tree", "script", "sum")
    is_sum = fields.flag("sum", absent=False)
    files = {
        "metrics": known.content(fields.text("metrics")),
        "tree": text_of(fields.value("tree")),
        "script": b"".join(text_of(line) + b"\n" for line in fields.items("script", lambda _line: True)),
    }
    status, out, _ = outcome(["edit", *files], files)
    return told(status, out, is_sum)


def text_of(value):
    """The compact text of a value."""
    return json.dumps(value, ensure_ascii=False, separators=(",", ":"), sort_keys=True).encode()


def failing_calls(of_sink):
    """How the run ends where its first call fails, where its second does, and so on up to the first run that ends as
    one without failing calls. A script is read line by line, each behind the last one's reply; all other files are read
    before anything is written. So where a call of the inputs fails, nothing is or a front; the last call of a script is the
    one that finds its end, behind all replies. Where one of the sink fails, a front is, since what is written grows with
    each call."""

    def carried_out(known, value):
        fields = Fields(value, "words", "files", "cut")
        words = fields.items("words", is_text)
        files = {name: known.content(name) for name in fields.items("files", is_text)}
        fields.items("cut", is_count, absent=[])
        status, text, looked_for = outcome(words, files)
        is_called = text != b"" if of_sink else looked_for != [] and status != READ_FAULT
        fault = WRITE_FAULT if of_sink else READ_FAULT
        endings = [f"{fault} {'whole' if text == b'' else 'front'}"] if is_called else []
        if not of_sink and is_script_read(looked_for) and text != b"":
            if status != 0:
                raise Undetermined("how far a script is read that passes a limit isn't told by the formats")
            endings.append(f"{fault} whole")
        return "; ".join([*endings, f"{status} whole"])

    return carried_out


def is_script_read(looked_for):
    """Whether the files that a run looks for are three: the last one is a script, and is there."""
    return len(looked_for) == 3


def cut_short(words, files, looked_for, cuts, failing, ending):
    """How a run ends, and what it writes, where the calls of the inputs with these numbers fail; `ending` is how it ends
    where none does."""
    few, many = calls_made([files[name] for name in looked_for[:2]], cuts)
    if not is_script_read(looked_for):
        return (READ_FAULT, b"") if has_call(failing, few, many) else ending
    numbers = [number for number in failing if number > 0]
    if not numbers:
        return ending
    # Before the first reply the script is selected at least, and read once.
    if min(numbers) <= few + 2:
        return READ_FAULT, b""
    return cut_script(words, files, looked_for[2], cuts, (min(numbers) - many, min(numbers) - few), ending)


def cut_script(words, files, script, cuts, between, ending):
    """The same where of the calls of a script, its select and then its reads, one with a number between these two fails
    first. A line is answered once its line feed was read, and before more is."""
    content = files[script]
    soon, late = between
    if soon > len(content) + 3:
        return ending
    is_single = all(cut in cuts for cut in range(1, len(content)))
    if soon != late or not is_single or ending[0] != 0 or not content.endswith(b"\n"):
        raise Undetermined("how much of a script was read by then isn't told by the formats")
    seen = soon - 2
    if seen > len(content):
        return ending
    answered = content[:content.rfind(b"\n", 0, seen) + 1]
    return READ_FAULT, outcome(words, {**files, script: answered})[1]


def calls_made(contents, cuts):
    """The least and the greatest number of calls in which these files are selected and read whole, one after the other; the
    first is the metrics file, the second the tree file."""
    limits = (LONGEST_METRICS, program.LONGEST_TREE)
    least = most = 0
    for content, limit in zip(contents, limits):
        few, many = reads_made(len(content), limit, cuts)
        least, most = least + 1 + few, most + 1 + many
    return least, most


def reads_made(size, limit, cuts):
    """The least and the greatest number of reads of a file of that size. A read gives at least one byte and stops at
    the cuts; one that gives none tells the end; at most a byte past the limit is read."""
    wanted = min(size, limit + 1)
    stops = len({cut for cut in cuts if 0 < cut < wanted})
    end = 1 if size <= limit else 0
    return (stops + 1 if wanted else 0) + end, wanted + end


def has_call(numbers, least, most):
    """Whether one of the calls with these numbers is made, where between `least` and `most` calls are."""
    if any(1 <= number <= least for number in numbers):
        return True
    if any(least < number <= most for number in numbers):
        raise Undetermined("whether so many calls of the inputs are made isn't told by the formats")
    return False


def written(status, text, failing, room):
    """The status and the bytes that a sink with that room has taken at the end, where calls with these numbers fail."""
    if text == b"":
        return status, text
    fits = min(room, len(text))
    # Each call before the sink is full takes at least a byte. Where not all fits, one more call finds it full.
    if 1 in failing or fits == 0:
        return WRITE_FAULT, b""
    if any(1 < number <= fits for number in failing):
        raise Undetermined("whether so many calls of the sink are made isn't told by the formats")
    return (status, text) if fits == len(text) else (WRITE_FAULT, text[:fits])


def told(status, text, is_sum):
    """The lines that tell of a run."""
    lines = [b"status %d" % status]
    if is_sum:
        return lines + [b"sum %d %d %016x" % (text.count(b"\n"), len(text), fnv1a(text))]
    *whole, rest = text.split(b"\n")
    return lines + [b"|" + line for line in whole] + ([b"+" + rest] if rest else [])


@lru_cache(maxsize=8)
def fnv1a(data):
    """The 64-bit FNV-1a hash."""
    found = 0xCBF29CE484222325
    for byte in data:
        found = (found ^ byte) * 0x100000001B3 & 0xFFFFFFFFFFFFFFFF
    return found


RUNS = {"run": run, "layout": command("layout"), "check": command("check"), "edit": edit}
FAILING = {"failing_reads": failing_calls(of_sink=False), "failing_writes": failing_calls(of_sink=True)}
