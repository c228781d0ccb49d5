"""Track files for the questions write and read: 01's form, and points that tracks are made of."""

from questions.doubles import any_number, pattern_of
from questions.points import ENDS, any_coordinate


def number_bytes(number):
    """The shortest form of a number."""
    first, rest = number % 128, number // 128
    return bytes([first]) if rest == 0 else bytes([128 | first]) + number_bytes(rest)


def zigzag(difference):
    """A difference of patterns, wrapped at 2^64, as it is stored."""
    wrapped = difference % 2**64
    return 2 * wrapped if wrapped < 2**63 else 2 * (2**64 - wrapped) - 1


def numbers_of(patterns):
    """The numbers of a file, after the count."""
    return [zigzag(pattern - before) for pattern, before in zip(patterns, [0, 0] + patterns)]


def file_of(patterns):
    """The file of any patterns, accepted or not; of an odd list with the count rounded down."""
    return b"".join(map(number_bytes, [len(patterns) // 2] + numbers_of(patterns)))


def any_track(random, length):
    """A list of so many accepted coordinates."""
    return [pattern_of(number) for number in random.choice(SHAPES)(random, length)]


# ---- shapes


def scattered(random, length):
    return [any_coordinate(random) for _ in range(length)]


def at_ends(random, length):
    """Zeros of both signs, and both ends of the range."""
    return [random.choice(ENDS) for _ in range(length)]


def path(random, length):
    """A ball's way: each coordinate near the one before it."""
    numbers = [any_number(random, -2, 6), any_number(random, -2, 6)]
    while len(numbers) < length:
        numbers.append(numbers[-2] + random.choice((0.0, 2.0**-30, -0.25, random.random())))
    return numbers[:length]


def turning(random, length):
    """Signs that change from point to point: numbers of ten bytes."""
    return [(-1) ** (index // 2) * any_number(random, 1, 399) for index in range(length)]


def standing(random, length):
    """The same point again and again: numbers of one byte."""
    point = [any_coordinate(random), any_coordinate(random)]
    return (point * length)[:length]


SHAPES = (scattered, at_ends, path, turning, standing)
