"""IEEE 754, binary64: rounding to nearest, ties to even, written out in integers.

Numbers are whole units of 2^-1074. Infinity is held as the whole number 2^1024 / 2^-1074, the
first that no finite double reaches, so that it is above all of them.
"""

PRECISION = 53
UNIT = 1074  # the unit is 2^-1074
INFINITE = 2 ** (1024 + UNIT)


def nearest(number, scale=0):
    """The double nearest to number / 2^scale, ties to even."""
    magnitude = abs(number)
    # A double has at most 53 bits, and none below the unit.
    dropped = max(magnitude.bit_length() - PRECISION, scale)
    kept = magnitude >> dropped
    twice_rest = magnitude - (kept << dropped) << 1
    last_place = 1 << dropped
    if twice_rest > last_place or (twice_rest == last_place and kept % 2 == 1):
        kept += 1
    rounded = min(kept << (dropped - scale), INFINITE)
    return rounded if number > 0 else -rounded


def product(first, second):
    """The rounded product; the exact one is a whole number of 2^-2148."""
    return nearest(first * second, UNIT)


def is_finite_double(number):
    return nearest(number) == number and abs(number) < INFINITE
