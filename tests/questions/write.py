"""Questions of the kind write: a room and a list of coordinates."""

from questions.doubles import SIGN, spelled_list
from questions.lines import with_damaged
from questions.points import REFUSED, replaced, with_refused
from questions.tracks import any_track, file_of

LARGEST_ROOM = 10_300

UNCLEAR = (
    b"write", b"write ", b"write 00", b"write -1", b"write x", b"write 10301", b"write 4294967296",
    b"write 10301 3ff0000000000000 3ff0000000000000", b"write 3ff0000000000000 3ff0000000000000",
    b"write 9 3ff0000000000000 ", b"write 9  3ff0000000000000", b"write 9 3ff0000000000000 3ff000000000000",
    b"write 9" + 1024 * b" 3ff0000000000000" + b" x", b"write 9" + 1025 * b" 7ff0000000000000" + b" x",
    b"write 9" + 1026 * b" 3ff0000000000000" + b" x", b"write 9" + 5000 * b" 3ff0000000000000" + b" 0",
)

# the longest file is of numbers of ten bytes each: 2.0 and -2.0 in turn differ by 2^63
TEN_BYTES_EACH = [1024 << 52, 1024 << 52, SIGN | 1024 << 52, SIGN | 1024 << 52] * 256

LENGTHS = list(range(0, 1020, 2)) + list(range(1, 12, 2)) + list(range(1020, 1031))


def questions(random):
    return with_damaged(random, UNCLEAR, asked(random))


def asked(random):
    for patterns in tracks(random):
        words = spelled_list(random, patterns)
        for room in rooms(random, len(file_of(patterns))):
            yield b"write %d%s" % (min(room, LARGEST_ROOM), words)


def rooms(random, length):
    """For a short file a room that it does not fit, and one that it mostly does; for a long one either."""
    least = random.choice((0, 1, length - 1, length - 1))
    enough = random.choice((length, length, length + 1, LARGEST_ROOM, random.randint(0, LARGEST_ROOM)))
    return (least, enough) if length < 1000 else (random.choice((least, enough, enough)),)


def tracks(random):
    """Lists of patterns, without end."""
    for longest in [TEN_BYTES_EACH] * 6 + [TEN_BYTES_EACH[:-2], TEN_BYTES_EACH + TEN_BYTES_EACH[:2]]:
        yield longest
    for length in LENGTHS:
        yield any_track(random, length)
        if 0 < length < 12 or length >= 1020:
            yield with_refused(random, any_track(random, length))
    for place in range(6):
        for refused in REFUSED:
            yield replaced(any_track(random, 6), place, refused)
    while True:
        track = any_track(random, random.choice(random.choices(LENGTH_RANGES, LENGTH_WEIGHTS)[0]))
        yield track
        if track and random.randrange(8) == 0:
            yield with_refused(random, track)


LENGTH_RANGES = (range(0, 12, 2), range(1, 13, 2), range(12, 100, 2), range(100, 1026, 2), range(1026, 1200))
LENGTH_WEIGHTS = (700, 100, 170, 25, 5)
