"""01, 'Numbers': taking a double apart, its value in units of 2^-1074, and accepted coordinates.

All from the fields of its 64-bit pattern, in integers only.
"""

from rounding import UNIT
from words import Refused, Unclear, read_double

FRACTION_BITS = 52
SPECIAL_FIELD = 2047  # the exponent field of infinities and NaNs
REACH = 400  # of coordinates: they are from 2^-400 to 2^400


def is_finite(pattern):
    return pattern >> FRACTION_BITS & 2047 != SPECIAL_FIELD


def apart(pattern):
    """Sign bit, significand s and exponent e, as the fields have them: magnitude s * 2^(e - 1074)."""
    sign = pattern >> 63
    field = pattern >> FRACTION_BITS & 2047
    fraction = pattern % 2**FRACTION_BITS
    if not is_finite(pattern):
        raise Refused(2, 0)
    if field == 0:
        return sign, fraction, 0
    # A normal number has a leading 1 that is not stored; field 1 has the weight of field 0.
    return sign, 2**FRACTION_BITS + fraction, field - 1


def answer_apart(words):
    """apart D"""
    if len(words) != 1:
        raise Unclear
    return b"apart %d %d %d" % apart(read_double(words[0]))


def units(pattern):
    """The value of a finite double, as a whole number of 2^-1074; 0 for both zeros."""
    sign, significand, exponent = apart(pattern)
    magnitude = significand << exponent
    return -magnitude if sign else magnitude


def pattern_of(value):
    """The pattern of the finite double that has this value; that of +0 for 0."""
    magnitude = abs(value)
    exponent = max(magnitude.bit_length() - (FRACTION_BITS + 1), 0)
    # Where the significand has its leading 1, adding makes the field the exponent plus one.
    pattern = (exponent << FRACTION_BITS) + (magnitude >> exponent)
    return 1 << 63 | pattern if value < 0 else pattern


def sign_of(number):
    return (number > 0) - (number < 0)


def is_coordinate(pattern, reach=REACH):
    """A zero, or of a magnitude from 2^-reach to 2^reach."""
    if not is_finite(pattern):
        return False
    magnitude = abs(units(pattern))
    return magnitude == 0 or 2 ** (UNIT - reach) <= magnitude <= 2 ** (UNIT + reach)


def coordinates(patterns, reach=REACH):
    """The values of a list of coordinates, or refusal 3 at the first that is not accepted."""
    for index, pattern in enumerate(patterns):
        if not is_coordinate(pattern, reach):
            raise Refused(3, index)
    return [units(pattern) for pattern in patterns]
