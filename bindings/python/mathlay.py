"""mathlay in Python: formulas that are laid out, edited and laid out again, by the proved library.

    from mathlay import Metrics, Session

    with Session(metrics_bytes, tree_bytes) as session:
        session.line(b'{"op":"text","node":14,"text":"44"}')    # b'ok\\n'
        session.show()                                          # the lines of all boxes and marks
        session.root().width                                    # in 1/1024 px
        session.undo()                                          # True: the text is the old one again
        session.paint()                                         # an SVG of the formula

    with Metrics(metrics_bytes) as font:                        # read once for many formulas
        sessions = [Session(font, tree_bytes) for tree_bytes in trees]

The library is a shared object, `libmathlay.so` (`make library` at the top of the repository). It is looked for in the
variable MATHLAY_LIBRARY, beside this file, at the top of the repository, where `make install-library` puts it, and where the
system keeps libraries.
"""
import ctypes
import ctypes.util
import operator
import os
import pathlib
import threading
from typing import List, NamedTuple, Optional, Union

__all__ = ["Area", "Frame", "MathlayError", "Metrics", "Refusal", "Session", "library"]

DONE, NODE, CLOSED, SHORT, NOTHING = 0, 10, 33, 34, 35
REFUSAL_ROOM = 160
FARTHEST = 2**62

NAMES = {
    3: "the metrics file is too long, or has a fault",
    4: "the tree file is too long, no JSON, or has a fault",
    7: "memory was refused",
    8: "a size of the layout is out of range",
    9: "the line has more than 1,048,576 bytes",
    10: "no element in flow has this number",
    11: "more would be painted than may be",
    32: "the session is open already, or the metrics are read already",
    33: "the session is closed, or the metrics are",
    34: "the buffer is too short",
    35: "no box holds the point, or there is nothing to undo or redo",
}


class MathlayError(Exception):
    """A call wasn't done. `status` is its number, and `line` what the program would have written."""

    def __init__(self, status: int, line: bytes = b"") -> None:
        self.status = status
        self.line = line
        told = line.decode().strip()
        super().__init__(NAMES.get(status, f"status {status}") + (f": {told}" if told else ""))


class Refusal(MathlayError):
    """The files give no session, or no metrics."""


class Frame(NamedTuple):
    """The box of an element, in 1/1024 px: ascents count upward from the baseline, descents downward."""

    width: int
    ascent: int
    descent: int
    ink_ascent: int
    ink_descent: int
    italic: int
    accent: int


class Area(NamedTuple):
    """A rectangle to mark, in 1/1024 px: its left upper corner, to the right and downward from where the formula's baseline
    begins, and its size."""

    x: int
    y: int
    width: int
    height: int


def _bytes(given, what: str) -> bytes:
    if not isinstance(given, (bytes, bytearray, memoryview)):
        raise TypeError(f"{what} has to be bytes, not {type(given).__name__}")
    return bytes(given)


class _Handle(ctypes.Structure):
    _fields_ = [("at", ctypes.c_void_p)]


class _Frame(ctypes.Structure):
    _fields_ = [(name, ctypes.c_int64) for name in Frame._fields]


_LIBRARY = None


def _paths():
    here = pathlib.Path(__file__).resolve()
    if "MATHLAY_LIBRARY" in os.environ:
        yield os.environ["MATHLAY_LIBRARY"]
    above = list(here.parents)
    # the top of the repository, or where `make install-library` puts it
    for folder in (here.parent, *above[2:3], *(folder / "lib" for folder in above[3:4])):
        path = folder / "libmathlay.so"
        if path.exists():
            yield str(path)
    found = ctypes.util.find_library("mathlay")
    if found:
        yield found


def library() -> ctypes.CDLL:
    """The shared object, loaded once. `OSError` where there is none."""
    global _LIBRARY
    if _LIBRARY is None:
        path = next(_paths(), None)
        if path is None:
            raise OSError("libmathlay.so isn't there: `make library` at the top of the repository makes it")
        _LIBRARY = _typed(ctypes.CDLL(path))
    return _LIBRARY


def _typed(loaded: ctypes.CDLL) -> ctypes.CDLL:
    text, size, handle = ctypes.c_char_p, ctypes.c_size_t, ctypes.POINTER(_Handle)
    told, number = ctypes.POINTER(ctypes.c_size_t), ctypes.c_uint32
    for name, types, result in (
        ("open", [text, size, text, size, handle, text, size, told], ctypes.c_uint32),
        ("read", [text, size, handle, text, size, told], ctypes.c_uint32),
        ("start", [handle, text, size, handle, text, size, told], ctypes.c_uint32),
        ("forget", [handle], None),
        ("line", [handle, text, size], ctypes.c_uint32),
        ("undo", [handle], ctypes.c_uint32),
        ("redo", [handle], ctypes.c_uint32),
        ("show", [handle], ctypes.c_uint32),
        ("paint", [handle], ctypes.c_uint32),
        ("select", [handle, number, number, ctypes.POINTER(number)], ctypes.c_uint32),
        ("reply", [handle, text, size, told], ctypes.c_uint32),
        ("root", [handle, ctypes.POINTER(_Frame)], ctypes.c_uint32),
        ("hit", [handle, ctypes.c_int64, ctypes.c_int64, ctypes.POINTER(number)], ctypes.c_uint32),
        ("close", [handle], None),
    ):
        call = getattr(loaded, "mathlay_" + name)
        call.argtypes, call.restype = types, result
    return loaded


def _opened(call, *given) -> None:
    """Makes a call that tells a refusal in a line, and raises what it tells."""
    line, length = ctypes.create_string_buffer(REFUSAL_ROOM), ctypes.c_size_t()
    status = call(*given, line, REFUSAL_ROOM, length)
    if status == CLOSED:
        raise MathlayError(status)
    if status != DONE:
        raise Refusal(status, line.raw[: length.value])


class Metrics:
    """The metrics of a font, read once for any number of sessions. Each session takes a copy, so these may be closed before.

    Calls of several threads on them wait for each other. They can't be copied or pickled.
    """

    def __init__(self, metrics: bytes) -> None:
        """Reads a metrics file's bytes, or raises `Refusal`."""
        metrics = _bytes(metrics, "a metrics file")
        self._library = library()
        self._lock = threading.RLock()
        self._handle = _Handle()
        _opened(self._library.mathlay_read, metrics, len(metrics), self._handle)

    def _start(self, tree: bytes, session: _Handle) -> None:
        """Opens a session with a copy of these metrics."""
        with self._lock:
            _opened(self._library.mathlay_start, self._handle, tree, len(tree), session)

    def close(self) -> None:
        """Frees the metrics. Closed ones may be closed again, and start no session: that raises `MathlayError`."""
        if getattr(self, "_handle", None) is not None:
            with self._lock:
                self._library.mathlay_forget(self._handle)

    __del__ = close

    def __reduce__(self):
        raise TypeError("metrics can't be copied or pickled")

    def __enter__(self) -> "Metrics":
        return self

    def __exit__(self, *_) -> None:
        self.close()


class Session:
    """A formula that is laid out, and stays laid out under edits, of which the last 1,000 can be undone.

    Calls of several threads on one session wait for each other. A session can't be copied or pickled.
    """

    def __init__(self, metrics: Union[bytes, Metrics], tree: bytes) -> None:
        """Lays the tree of a JSON text out with a metrics file's bytes, or with metrics; or raises `Refusal`."""
        is_read = isinstance(metrics, Metrics)
        metrics, tree = metrics if is_read else _bytes(metrics, "a metrics file"), _bytes(tree, "a tree file")
        self._library = library()
        self._lock = threading.RLock()
        self._handle = _Handle()
        if is_read:
            metrics._start(tree, self._handle)
        else:
            _opened(self._library.mathlay_open, metrics, len(metrics), tree, len(tree), self._handle)

    def line(self, line: bytes) -> bytes:
        """Answers one line of a script, which needs no line feed. An edit that is refused is a reply too."""
        line = _bytes(line, "a line")
        with self._lock:
            self._ask(self._library.mathlay_line(self._handle, line, len(line)))
            return self.reply()

    def undo(self) -> bool:
        """Undoes the last edit that wasn't undone, and says whether there was one."""
        return self._step(self._library.mathlay_undo)

    def redo(self) -> bool:
        """Makes the edit again that was undone last, and says whether there was one."""
        return self._step(self._library.mathlay_redo)

    def show(self) -> bytes:
        """The lines of all boxes and marks, behind a line `shown`."""
        with self._lock:
            self._ask(self._library.mathlay_show(self._handle))
            return self.reply()

    def paint(self) -> bytes:
        """An SVG of the formula, in which glyphs stand by their names: a page defines what each looks like."""
        with self._lock:
            self._ask(self._library.mathlay_paint(self._handle))
            return self.reply()

    def select(self, first: int, second: int) -> List[Area]:
        """The areas to mark from one element to another; `KeyError` with the number of an element that isn't there."""
        missing = ctypes.c_uint32()
        first, second = operator.index(first), operator.index(second)
        for number in (first, second):
            if not 0 <= number < 2**32:
                raise KeyError(number)
        with self._lock:
            status = self._library.mathlay_select(self._handle, first, second, missing)
            if status == NODE:
                raise KeyError(missing.value)
            self._ask(status)
            lines = self.reply().decode().splitlines()
        return [Area(*(int(word) for word in line.split()[1:])) for line in lines]

    def reply(self) -> bytes:
        """The reply to the last line, show, picture or selection; empty until the first of these."""
        with self._lock:
            length, room = ctypes.c_size_t(), 64
            while True:
                out = ctypes.create_string_buffer(room)
                status = self._library.mathlay_reply(self._handle, out, room, length)
                if status != SHORT:
                    self._ask(status)
                    return out.raw[: length.value]
                room = length.value

    def root(self) -> Frame:
        """The box of the whole formula."""
        frame = _Frame()
        with self._lock:
            self._ask(self._library.mathlay_root(self._handle, frame))
        return Frame(*(getattr(frame, name) for name in Frame._fields))

    def hit(self, x: int, y: int) -> Optional[int]:
        """The number of the element at a point, the last of the deepest whose boxes hold it; None where no box does.

        The point is given as in box lines: in 1/1024 px, to the right and downward from where the formula's baseline begins.
        Both are whole numbers: `math.floor(1024 * pixels)`.
        """
        element = ctypes.c_uint32()
        # no box reaches so far
        near = [max(-FARTHEST, min(operator.index(place), FARTHEST)) for place in (x, y)]
        with self._lock:
            status = self._library.mathlay_hit(self._handle, *near, element)
        if status == NOTHING:
            return None
        self._ask(status)
        return element.value

    def close(self) -> None:
        """Ends the session. A closed one may be closed again."""
        if getattr(self, "_handle", None) is not None:
            with self._lock:
                self._library.mathlay_close(self._handle)

    __del__ = close

    def __reduce__(self):
        raise TypeError("a session can't be copied or pickled")

    def __enter__(self) -> "Session":
        return self

    def __exit__(self, *_) -> None:
        self.close()

    def _step(self, call) -> bool:
        with self._lock:
            status = call(self._handle)
        if status == NOTHING:
            return False
        self._ask(status)
        return True

    @staticmethod
    def _ask(status: int) -> None:
        if status != DONE:
            raise MathlayError(status)
