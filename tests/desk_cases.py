"""Cases for tests/desk: what stands in place of a zone's and a release file, and what both programs print, or what each prints."""

import os
import threading

from questions.doubles import pattern_of
from questions.read import TEN_BYTES_EACH
from questions.tracks import file_of


def track(*coordinates):
    return file_of([pattern_of(float(coordinate)) for coordinate in coordinates])


# ---- what can stand in place of a file: bytes, nothing, or one of these


def folder(path):
    path.mkdir()


def failing(path):
    """Can be opened; reading it fails."""
    path.symlink_to("/proc/self/mem")


def unwritten(path):
    """A pipe that nobody writes to: whoever opens it waits, and the test runs out of time."""
    os.mkfifo(path)


def dripping(file):
    """A pipe that gives a few bytes at a time."""

    def make(path):
        os.mkfifo(path)
        threading.Thread(target=drip, args=(path, file), daemon=True).start()

    return make


def unended(file):
    """A pipe that gives these bytes and stays open: whoever asks for more waits, and the test runs out of time."""

    def make(path):
        os.mkfifo(path)
        threading.Thread(target=give, args=(path, file), daemon=True).start()

    return make


def give(path, file):
    with open(path, "wb", buffering=0) as pipe:
        pipe.write(file)
        threading.Event().wait()


def drip(path, file):
    with open(path, "wb", buffering=0) as pipe:
        for start in range(0, len(file), 7):
            pipe.write(file[start : start + 7])


# ---- cases

ROUND = [0, 0, 4, 0, 4, 4, 0, 4]
BACK = [0, 0, 0, 4, 4, 4, 4, 0]
SQUARE = track(*ROUND)
THREE = track(2, 2, 4, 1, 5, 5)
PLACES = "releases 3\n1 inside\n2 border\n3 outside\n"
REASONS = "releases 3\n1 inside: edge 1 up, total 1\n2 border: edge 1, between its corners\n3 outside: no edge counts, total 0\n"
NONE = b"\x00"

# a square whose first corner stands again at its end, until there are so many corners
def ring(corners):
    return track(*(ROUND + [0, 0] * (corners - 4)))


# so that why prints each form of line
SIX = track(2, 2, 4, 1, 5, 5, 4, 4, -1, 2, 0, 0)
SIX_PLACES = "releases 6\n1 inside\n2 border\n3 outside\n4 border\n5 outside\n6 border\n"


def lines(said, last=512):
    """The lines of the releases up to this one, of which the same is said."""
    return "".join(f"{number} {said}\n" for number in range(1, last + 1))


MOST = "releases 512\n"
LONGEST = file_of(TEN_BYTES_EACH)
AROUND = track(-8, -8, 8, -8, 0, 16)
# three corners at the origin
AT_ORIGIN = track(*[0] * 6)

# corners by turns below and above the origin; all to its right, so that all 64 edges count there
ZIGZAG = track(*[number for index in range(64) for number in (index + 1, index % 2 * 2 - 1)])
ALL_COUNT = "".join(f"edge {edge} up, edge {edge + 1} down, " for edge in range(0, 64, 2)) + "total 0"
UPS = "".join(f"edge {edge} up, " for edge in range(0, 64, 2))
DOWNS = "".join(f"edge {edge} down, " for edge in range(1, 63, 2))


# likewise, but each further out than the one before it and across, so that the origin is gone round 31 times, clockwise where way is -1
def wound(way):
    return track(*[(index % 2 * 2 - 1) * number for index in range(64) for number in (way * index, 1)])


LEAST, FARTHEST = 2.0**-400, 2.0**400

CASES = [
    # zone.trk, release.trk, what desk prints, and what why prints where that is another text
    (SQUARE, THREE, PLACES, REASONS),
    (dripping(SQUARE), dripping(THREE), PLACES, REASONS),
    # each form of line; the square listed clockwise, and twice, whose middle is inside, and three times clockwise
    (
        SQUARE,
        SIX,
        SIX_PLACES,
        "releases 6\n"
        "1 inside: edge 1 up, total 1\n"
        "2 border: edge 1, between its corners\n"
        "3 outside: no edge counts, total 0\n"
        "4 border: edge 1, at one of its corners\n"
        "5 outside: edge 1 up, edge 3 down, total 0\n"
        "6 border: edge 0, at one of its corners\n",
    ),
    (
        track(*BACK),
        SIX,
        SIX_PLACES,
        "releases 6\n"
        "1 inside: edge 2 down, total -1\n"
        "2 border: edge 2, between its corners\n"
        "3 outside: no edge counts, total 0\n"
        "4 border: edge 1, at one of its corners\n"
        "5 outside: edge 0 up, edge 2 down, total 0\n"
        "6 border: edge 0, at one of its corners\n",
    ),
    (
        track(*ROUND * 2),
        SIX,
        SIX_PLACES,
        "releases 6\n"
        "1 inside: edge 1 up, edge 5 up, total 2\n"
        "2 border: edge 1, between its corners\n"
        "3 outside: no edge counts, total 0\n"
        "4 border: edge 1, at one of its corners\n"
        "5 outside: edge 1 up, edge 3 down, edge 5 up, edge 7 down, total 0\n"
        "6 border: edge 0, at one of its corners\n",
    ),
    (track(*BACK * 3), track(2, 2), "releases 1\n1 inside\n", "releases 1\n1 inside: edge 2 down, edge 6 down, edge 10 down, total -3\n"),
    (None, THREE, "unreadable zone\n"),
    (None, None, "unreadable zone\n"),
    (SQUARE, None, "unreadable releases\n"),
    (folder, THREE, "unreadable zone\n"),
    (SQUARE, folder, "unreadable releases\n"),
    (failing, THREE, "unreadable zone\n"),
    (SQUARE, failing, "unreadable releases\n"),
    # the zone, refused by the reader
    (b"", THREE, "refused zone 6 0\n"),
    (b"\x80\x00", THREE, "refused zone 7 0\n"),
    (b"\x81\x04", THREE, "refused zone 1 0\n"),
    (SQUARE[:-1], THREE, "refused zone 6 %d\n" % (len(SQUARE) - 1)),
    (b"\x01\x02\x00", THREE, "refused zone 3 1\n"),
    (SQUARE + b"\x00", THREE, "refused zone 8 %d\n" % len(SQUARE)),
    (b"\x80\x04", THREE, "refused zone 6 2\n"),
    # at its third number: missing, not accepted, not shortest; after its last
    (AT_ORIGIN[:3], THREE, "refused zone 6 3\n"),
    (b"\x03\x00\x00\x02\x00\x00\x00", THREE, "refused zone 3 3\n"),
    (b"\x03\x00\x00\x81\x00\x00\x00\x00", THREE, "refused zone 7 3\n"),
    (AT_ORIGIN + b"\x00", THREE, "refused zone 8 7\n"),
    # the zone, refused by the zone rule, whatever the releases are
    (NONE, THREE, "refused zone 4 0\n"),
    (NONE, None, "refused zone 4 0\n"),
    (NONE, folder, "refused zone 4 0\n"),
    # and before the release file is opened
    (NONE, unwritten, "refused zone 4 0\n"),
    (b"", unwritten, "refused zone 6 0\n"),
    (None, unwritten, "unreadable zone\n"),
    (track(0, 0, 4, 0), THREE, "refused zone 4 0\n"),
    (track(0, 0, 4, 0), b"", "refused zone 4 0\n"),
    (track(0, 0), THREE, "refused zone 4 0\n"),
    # both refused: the zone is told
    (b"", b"", "refused zone 6 0\n"),
    (NONE, b"", "refused zone 4 0\n"),
    (NONE, b"\x80\x00", "refused zone 4 0\n"),
    (ring(65), THREE, "refused zone 1 0\n"),
    (ring(65), None, "refused zone 1 0\n"),
    (ring(512), THREE, "refused zone 1 0\n"),
    (LONGEST, None, "refused zone 1 0\n"),
    # as few and as many corners as a zone can have
    (
        track(0, 0, 4, 0, 4, 4),
        THREE,
        "releases 3\n1 border\n2 border\n3 outside\n",
        "releases 3\n1 border: edge 2, between its corners\n2 border: edge 1, between its corners\n3 outside: no edge counts, total 0\n",
    ),
    (ring(64), THREE, PLACES, REASONS),
    # as many edges as can count, and as many times round as a border can go, either way
    (ZIGZAG, track(0, 0), "releases 1\n1 outside\n", f"releases 1\n1 outside: {ALL_COUNT}\n"),
    (wound(1), track(0, 0), "releases 1\n1 inside\n", f"releases 1\n1 inside: {UPS}edge 63 down, total 31\n"),
    (wound(-1), track(0, 0), "releases 1\n1 inside\n", f"releases 1\n1 inside: {DOWNS}total -31\n"),
    # another triangle, and a border at -0; once round and once back: outside; a figure of eight; the ends of the range
    (
        track(0, 0, 4, 0, 0, 4),
        track(3, 3, 1, 1, 2, 2, 4, -0.0),
        "releases 4\n1 outside\n2 inside\n3 border\n4 border\n",
        "releases 4\n"
        "1 outside: no edge counts, total 0\n"
        "2 inside: edge 1 up, total 1\n"
        "3 border: edge 1, between its corners\n"
        "4 border: edge 0, at one of its corners\n",
    ),
    (
        track(*ROUND + BACK),
        THREE,
        "releases 3\n1 outside\n2 border\n3 outside\n",
        "releases 3\n1 outside: edge 1 up, edge 6 down, total 0\n2 border: edge 1, between its corners\n3 outside: no edge counts, total 0\n",
    ),
    (
        track(0, 0, 4, 4, 4, 0, 0, 4),
        track(1, 2, 3, 2, 2, 1, 2, 2),
        "releases 4\n1 inside\n2 inside\n3 outside\n4 border\n",
        "releases 4\n"
        "1 inside: edge 0 up, edge 1 down, edge 2 up, total 1\n"
        "2 inside: edge 1 down, total -1\n"
        "3 outside: edge 1 down, edge 2 up, total 0\n"
        "4 border: edge 0, between its corners\n",
    ),
    (
        track(0, 0, LEAST, FARTHEST, -FARTHEST, FARTHEST),
        track(0, LEAST, LEAST, LEAST, LEAST, FARTHEST),
        "releases 3\n1 inside\n2 outside\n3 border\n",
        "releases 3\n1 inside: edge 0 up, total 1\n2 outside: no edge counts, total 0\n3 border: edge 0, at one of its corners\n",
    ),
    # the releases, refused by the reader
    (SQUARE, b"", "refused releases 6 0\n"),
    (SQUARE, b"\x80\x00", "refused releases 7 0\n"),
    (SQUARE, b"\x81\x04", "refused releases 1 0\n"),
    (SQUARE, THREE[:-1], "refused releases 6 %d\n" % (len(THREE) - 8)),
    (SQUARE, b"\x01\x02\x00", "refused releases 3 1\n"),
    (SQUARE, THREE + b"\x00", "refused releases 8 %d\n" % len(THREE)),
    (SQUARE, b"\x01\x80", "refused releases 6 1\n"),
    (SQUARE, b"\x01\x80\x00\x00", "refused releases 7 1\n"),
    (SQUARE, b"\x01\x00\x00\x00", "refused releases 8 3\n"),
    (SQUARE, b"\x02\x00\x00\x00", "refused releases 6 4\n"),
    # none, two, and the most
    (SQUARE, NONE, "releases 0\n"),
    (
        SQUARE,
        track(0, 0, 0, 0),
        "releases 2\n1 border\n2 border\n",
        "releases 2\n1 border: edge 0, at one of its corners\n2 border: edge 0, at one of its corners\n",
    ),
    (
        AT_ORIGIN,
        track(*[0] * 1022, 1, 1),
        MOST + lines("border", last=511) + "512 outside\n",
        MOST + lines("border: edge 0, at one of its corners", last=511) + "512 outside: no edge counts, total 0\n",
    ),
    (AROUND, LONGEST, MOST + lines("inside"), MOST + lines("inside: edge 1 up, total 1")),
    (AROUND, dripping(LONGEST), MOST + lines("inside"), MOST + lines("inside: edge 1 up, total 1")),
    # and the longest text: 431 KB
    (ZIGZAG, track(*[0] * 1024), MOST + lines("outside"), MOST + lines(f"outside: {ALL_COUNT}")),
    (AROUND, LONGEST + b"\x00", "refused releases 8 10242\n"),
    (AROUND, LONGEST + b"\x00" * 100_000, "refused releases 8 10242\n"),
    (LONGEST + b"\x00", THREE, "refused zone 8 10242\n"),
    # no more is asked for of either file
    (SQUARE, unended(LONGEST + b"\x00"), "refused releases 8 10242\n"),
    (unended(LONGEST + b"\x00"), THREE, "refused zone 8 10242\n"),
    (SQUARE + b"\x00" * 100_000, THREE, "refused zone 8 %d\n" % len(SQUARE)),
]
