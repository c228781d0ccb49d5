"""Python's own floats as patterns, for the tests: the third opinion."""

import struct


def float_of(pattern):
    return struct.unpack(">d", struct.pack(">Q", pattern))[0]


def pattern_of(number):
    return struct.unpack(">Q", struct.pack(">d", number))[0]


def patterns_of(numbers):
    return [pattern_of(number) for number in numbers]


def words_of(numbers):
    """The words that a question has for these numbers."""
    return [b"%016x" % pattern for pattern in patterns_of(numbers)]


def any_finite(seeded):
    """A finite double: of any exponent, of one near 0 so that two overlap, or a subnormal."""
    field = seeded.choice((seeded.randrange(2047), seeded.randint(960, 1080), seeded.randrange(3)))
    return float_of(seeded.getrandbits(1) << 63 | field << 52 | seeded.getrandbits(52))
