"""01, 'The track file': the writer and the reader."""

from doubles import coordinates, is_coordinate
from promises import promise
from words import Refused, Unclear, read_bytes, read_doubles, read_room

MOST_POINTS = 512
MOST_BYTES = 10_242
LARGEST_ROOM_TO_WRITE = 10_300  # of the protocol; 01 has no such limit
LARGEST_ROOM_TO_READ = 1_100


def number_bytes(number):
    """Groups of seven bits, lowest first, the top bit set on every byte but the last."""
    groups = []
    while number >= 128:
        groups.append(128 + number % 128)
        number //= 128
    return bytes(groups + [number])


def number_at(file, start):
    """The number that begins at an offset, and the offset after it."""
    number = 0
    for index in range(10):
        if start + index == len(file):
            raise Refused(6, start)
        byte = file[start + index]
        # Nine groups are 63 bits, so the tenth has one.
        if index == 9 and byte > 1:
            raise Refused(7, start)
        number += byte % 128 * 128**index
        if byte < 128:
            break
    if byte == 0 and index > 0:
        raise Refused(7, start)
    return number, start + index + 1


def file_of(patterns):
    """What the writer writes for a list of accepted coordinates, two for each point."""
    parts = [number_bytes(len(patterns) // 2)]
    preceding = [0, 0]
    for index, pattern in enumerate(patterns):
        difference = (pattern - preceding[index % 2]) % 2**64
        d = difference if difference < 2**63 else difference - 2**64
        parts.append(number_bytes(2 * d if d >= 0 else -2 * d - 1))
        preceding[index % 2] = pattern
    return b"".join(parts)


def patterns_of(file, room):
    """What the reader reads into a list that has room for so many doubles."""
    points, offset = number_at(file, 0)
    if points > MOST_POINTS:
        raise Refused(1, 0)
    if room < 2 * points:
        raise Refused(9, 0)
    patterns = []
    preceding = [0, 0]
    for index in range(2 * points):
        number, after = number_at(file, offset)
        d = number // 2 if number % 2 == 0 else -(number + 1) // 2
        pattern = (preceding[index % 2] + d) % 2**64
        if not is_coordinate(pattern):
            raise Refused(3, offset)
        patterns.append(pattern)
        preceding[index % 2] = pattern
        offset = after
    if offset < len(file):
        raise Refused(8, offset)
    return patterns


def answer_write(words):
    """write ROOM D ..."""
    if not words:
        raise Unclear
    room, patterns = read_room(words[0], LARGEST_ROOM_TO_WRITE), read_doubles(words[1:])
    if len(patterns) % 2 == 1:
        raise Refused(5, 0)
    if len(patterns) // 2 > MOST_POINTS:
        raise Refused(1, 0)
    coordinates(patterns)
    file = file_of(patterns)
    promise(len(file) <= MOST_BYTES, "a file has at most 10,242 bytes")
    promise(patterns_of(file, len(patterns)) == patterns, "a file reads back to the same patterns")
    if len(file) > room:
        raise Refused(9, 0)
    return b"write %d %s" % (len(file), file.hex().encode("ascii"))


def answer_read(words):
    """read ROOM BYTES, or read ROOM for an empty file

    Takes all of an overlong file, where ask takes 10,243 bytes: the answer is to be the same.
    """
    if len(words) not in (1, 2):
        raise Unclear
    room, file = read_room(words[0], LARGEST_ROOM_TO_READ), b"".join(map(read_bytes, words[1:]))
    patterns = patterns_of(file, room)
    promise(file_of(patterns) == file, "an accepted file is what the writer would write")
    return b" ".join([b"read", b"%d" % (len(patterns) // 2)] + [b"%016x" % pattern for pattern in patterns])
