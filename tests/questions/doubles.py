"""Doubles for questions: the patterns where rules change, random ones, and their spelling."""

import math
import struct

FRACTION_BITS = 52
SIGN = 1 << 63
INFINITY = 2047 << FRACTION_BITS
REACH = 400  # of coordinates: they are from 2^-400 to 2^400


def power_of_two(exponent):
    """The pattern of a power of two that is a normal double."""
    return 1023 + exponent << FRACTION_BITS


# Each is asked with the patterns next to it. With them come the least and greatest subnormal
# (after 0, before the least normal), the largest finite and the least NaN (around infinity).
TURNING_POINTS = (1 << FRACTION_BITS, power_of_two(-REACH), power_of_two(0), power_of_two(REACH), INFINITY)

NOT_FINITE = (INFINITY, SIGN | INFINITY, INFINITY | 1, SIGN - 1, INFINITY | 1 << 51, SIGN | INFINITY | 1 << 51)


def notable():
    """Every pattern at a turning point, and NaNs of every payload bit, with both signs."""
    magnitudes = [0, 1]
    for turn in TURNING_POINTS:
        magnitudes += [turn - 1, turn, turn + 1]
    for bit in range(FRACTION_BITS):
        magnitudes += [INFINITY | 1 << bit, SIGN - 1 ^ 1 << bit]
    magnitudes.append(SIGN - 1)
    return [sign | magnitude for magnitude in magnitudes for sign in (0, SIGN)]


def every_exponent(random):
    """Every exponent field with fractions 0, 1, all ones and a random one."""
    for field in range(2048):
        for fraction in (0, 1, (1 << FRACTION_BITS) - 1, random.getrandbits(FRACTION_BITS)):
            yield random.choice((0, SIGN)) | field << FRACTION_BITS | fraction


def any_pattern(random):
    """Any pattern; one in eight has the exponent field of subnormals, one in eight that of NaNs."""
    pattern = random.getrandbits(64)
    return random.choice((pattern & ~INFINITY, pattern | INFINITY) + 6 * (pattern,))


def any_finite(random):
    """Any finite pattern; one in eight has the exponent field of subnormals."""
    pattern = any_pattern(random)
    return pattern if pattern & INFINITY != INFINITY else pattern & ~INFINITY


def pattern_of(number):
    return struct.unpack(">Q", struct.pack(">d", number))[0]


def float_of(pattern):
    return struct.unpack(">d", struct.pack(">Q", pattern))[0]


def moved(random, number, most):
    """A nonzero number moved by at most so many last places."""
    return float_of(pattern_of(number) + random.randint(-most, most)) if number else number


def outward(number):
    """The next double away from 0."""
    return float_of(pattern_of(number) + 1)


def any_significand(random):
    """From 1 up to 2: of any bits, of few bits, or next to a power of two."""
    few = 1 + random.randrange(8) / 8
    return random.choice((1 + random.getrandbits(52) / 2**52, few, 1.0, 1 + 2**-52, 2 - 2**-52))


def any_number(random, least, greatest):
    """A number of either sign, with a binary exponent in the given range."""
    return random.choice((-1, 1)) * math.ldexp(any_significand(random), random.randint(least, greatest))


def spelled(random, pattern):
    """The 16 digits of a pattern: lower case, upper case, or upper case as far as some digit."""
    digits = b"%016x" % pattern
    turn = random.choice((0, 16, random.randrange(17)))
    return digits[:turn].upper() + digits[turn:]


def spelled_list(random, patterns):
    """The words of a list, each with the space before it."""
    return b"".join(b" " + spelled(random, pattern) for pattern in patterns)
