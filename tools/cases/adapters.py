"""What the program `cases` tells before its cases: what comes of files of the system, and of an output that takes little.

The texts are those of the system that POSIX describes: a name that isn't there is missing, a folder opens like a file and
can't be read, and a name below a file can't be opened.
"""

# The file that is there, and how many bytes of it are read at most.
BLOCKS = "blocks"
LIMITS = (40_000, 39_999)
# The bytes of a piece that is written, how often, the room that there is for them, and how many a call takes at most.
PIECE, TIMES, ROOM, MOST = 4, 4, 8, 3


def told(data):
    """The lines that the program writes where its folder data/ is this one."""
    return b"".join([*of_files((data / BLOCKS).read_bytes()), *of_output(False), *of_output(True)])


def of_files(content):
    """Files that are read whole, with a limit; then a name that can't be selected, and a read where nothing is."""
    faults = 0
    for limit in LIMITS:
        if len(content) <= limit:
            yield line(f"{BLOCKS} of at most {limit} bytes: {len(content)} bytes")
            yield content
        else:
            yield line(f"{BLOCKS} of at most {limit} bytes: the file is too long")
        yield counts(0, faults)
    yield line("absent of at most 100 bytes: a read failed")
    yield counts(1, faults)
    faults += 1
    yield line(". of at most 100 bytes: a read failed")
    yield counts(1, faults)
    faults += 1
    yield line(f"{BLOCKS}/absent is selected: false")
    yield counts(1, faults)
    yield line("read where nothing is selected: 0 bytes")
    yield counts(1, faults)


def of_output(breaks):
    """Pieces that are written to an output whose first call is interrupted; it isn't tried again."""
    yield line(f"an output that breaks: {word(breaks)}")
    room, interrupted = ROOM, True
    for _ in range(TIMES):
        left = PIECE
        while left and room and not interrupted:
            taken = min(left, room, MOST)
            left, room = left - taken, room - taken
        interrupted = False
        yield line(f"a piece is written: {word(left == 0)}, room for {room} bytes")


def counts(missing, faults):
    """How often a name wasn't found, and how often a call failed."""
    return line(f"missing {missing}, faults {faults}")


def word(truth):
    return "true" if truth else "false"


def line(text):
    return text.encode() + b"\n"
