"""Questions of the kind read: a room and the bytes of a file."""

from questions.doubles import pattern_of
from questions.lines import with_damaged
from questions.points import REFUSED, with_refused
from questions.tracks import any_track, file_of, number_bytes, numbers_of
from questions.write import LENGTH_RANGES, LENGTH_WEIGHTS, TEN_BYTES_EACH

LARGEST_ROOM = 1_100

UNCLEAR = (
    b"read", b"read ", b"read 00", b"read -1", b"read x", b"read 1101", b"read 4294967296", b"read 1101 00",
    b"read 0 0", b"read 0 000", b"read 0 0x00", b"read 0 0g", b"read 0 00 00", b"read 0 00 ", b"read 0  00",
    b"read 0 " + 10_243 * b"00" + b"0", b"read 0 " + 10_243 * b"00" + b"x", b"read 0 " + 20_000 * b"00" + b"0g",
)

SMALL_FILES = [
    bytes.fromhex("00"),
    bytes.fromhex("010000"),
    file_of([pattern_of(1.0), pattern_of(-0.0)]),
    file_of([pattern_of(number) for number in (0.1, -0.1, 0.1, 0.2, -2.0, 2.0)]),
]

MANY_BYTES = (10_241, 10_242, 10_243, 10_244, 20_000)


def questions(random):
    return with_damaged(random, UNCLEAR, asked(random))


def asked(random):
    for file, points in files(random):
        yield line(random, room(random, points), file)


def line(random, space, file):
    digits = file.hex().encode("ascii")
    return b"read %d" % space + (b" " + random.choice((digits, digits.upper())) if file else b"")


def room(random, points):
    """Mostly enough for so many points: exactly, odd, or more; else too short."""
    needed = 2 * points
    space = random.choice((needed, needed, needed + 1, LARGEST_ROOM, needed - 1, random.randint(0, LARGEST_ROOM)))
    return min(max(space, 0), LARGEST_ROOM)


def files(random):
    """Files with the number of points that they may hold, without end."""
    yield b"", 0
    yield from cut_and_flipped()
    yield from with_every_tenth_byte()
    yield from of_every_count(random)
    yield from with_every_refusal(random)
    yield from of_many_bytes(random)
    while True:
        length = random.choice(random.choices(LENGTH_RANGES, LENGTH_WEIGHTS)[0])
        track = any_track(random, length)
        yield random.choice(SHAPES)(random, track), length // 2


# ---- files that are always asked


def cut_and_flipped():
    """Small files, with every byte the last, or changed, or doubled, or left out."""
    for file in SMALL_FILES:
        yield file, file[0]
        for at in range(len(file)):
            yield file[:at], file[0]
            yield file[:at] + file[at + 1 :], file[0]
            yield file[: at + 1] + file[at:], file[0]
            for change in (0x01, 0x02, 0x40, 0x7F, 0x80, 0x81, 0xFF):
                yield file[:at] + bytes([file[at] ^ change]) + file[at + 1 :], file[0]


def with_every_tenth_byte():
    """Numbers of nine full bytes and any tenth, as the count and as a coordinate."""
    for byte in range(256):
        for first in (b"\x80", b"\xff"):
            number = first * 9 + bytes([byte])
            yield number, 0
            yield b"\x01" + number, 1
            yield b"\x01" + number + b"\x00", 1
            yield b"\x01\x00" + number + b"\x00", 1


def of_every_count(random):
    """Counts up to the limit and above it, with fewer bytes than they need, or with enough."""
    for count in range(516):
        yield number_bytes(count), count
        yield number_bytes(count) + b"\x00" * (2 * count + random.choice((-1, 0, 0, 1))), count
    for count in [2**power + more for power in range(10, 64) for more in (-1, 0)] + [2**64 - 1]:
        yield number_bytes(count), 512
        yield number_bytes(count) + b"\x00" * 1024, 512
    # not shortest
    for count in (0, 1, 127, 128, 512, 513, 2**62):
        yield padded(number_bytes(count), 1) + b"\x00\x00", 2
        yield padded(number_bytes(count), 9) + b"\x00\x00", 2


def with_every_refusal(random):
    """Every refused coordinate at every place, and the number after it good, bad or missing."""
    for place in range(4):
        for refused in REFUSED:
            track = any_track(random, place) + [refused] + any_track(random, 3 - place)
            file = file_of(track)
            yield file, 2
            end = len(file_of(track[: place + 1]))
            yield file[:end] + random.choice((b"", b"\x80", b"\x80\x00", b"\xff" * 10)), 2


def of_many_bytes(random):
    """The longest file, and bytes past it."""
    longest = file_of(TEN_BYTES_EACH)
    for length in MANY_BYTES:
        yield (longest + random.choice((b"\x00", b"\xff")) * 10_000)[:length], 512
        yield b"\x00" * length, 0
        yield b"\xff" * length, 0
        yield number_bytes(512) + b"\x00" * (length - 2), 512


# ---- shapes: the file of a track, as it is or with a fault


def good(random, track):
    return file_of(track)


def cut(random, track):
    file = file_of(track)
    return file[: random.randint(0, len(file))]


def flipped(random, track):
    """One bit of the file changed."""
    file = bytearray(file_of(track))
    file[random.randrange(len(file))] ^= 1 << random.randrange(8)
    return bytes(file)


def followed(random, track):
    """Bytes after the last number."""
    return file_of(track) + random.choice((b"\x00", b"\x80", b"\xff\xff", b"\x01\x00\x00"))


def unaccepted(random, track):
    """Coordinates that are not accepted, and perhaps an end soon after."""
    file = file_of(with_refused(random, track)) if track else b"\x00"
    return file[: len(file) - random.choice((0, 0, 1, 5))]


def not_shortest(random, track):
    """One number in a longer form than it needs; the form may have ten bytes or more."""
    numbers = [number_bytes(number) for number in [len(track) // 2] + numbers_of(track)]
    at = random.randrange(len(numbers))
    numbers[at] = padded(numbers[at], random.choice((1, 2, 8, 9, 10)))
    return b"".join(numbers)


def padded(number, more):
    """A number with so many groups of zeros at its end."""
    return number[:-1] + bytes([number[-1] | 0x80]) + b"\x80" * (more - 1) + b"\x00"


def miscounted(random, track):
    """A count that is not that of the points."""
    count = len(track) // 2 + random.choice((-1, 1, 2, 512, 2**32))
    return number_bytes(max(count, 0)) + b"".join(map(number_bytes, numbers_of(track)))


def noise(random, track):
    length = random.randrange(30)
    return bytes([random.randrange(4)]) + random.getrandbits(8 * length).to_bytes(length, "little")


SHAPES = (good, good, good, cut, flipped, followed, unaccepted, not_shortest, miscounted, noise)
