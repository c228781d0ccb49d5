"""Coordinates and points for the questions side, zone, why, plan, plane, meet, write and read, as floats.

Coordinates are accepted up to a reach: from 2^-reach to 2^reach, or zero.
"""

import math

from questions.doubles import NOT_FINITE, REACH, SIGN, any_number, float_of, pattern_of, power_of_two, spelled_list


def refused_of(reach):
    """With both signs: infinities and NaNs, subnormals, and the doubles next to the ends of the range."""
    least, largest = power_of_two(-reach), power_of_two(reach)
    outside = (1, (1 << 52) - 1, 1 << 52, least - 1, largest + 1, (2047 << 52) - 1)
    return NOT_FINITE + tuple(sign | pattern for pattern in outside for sign in (0, SIGN))


def ends_of(reach):
    """With both signs: zero, and the ends of the range with the doubles next to them inside."""
    least, largest = power_of_two(-reach), power_of_two(reach)
    inside = (0, least, least + 1, largest - 1, largest)
    return tuple(sign * float_of(pattern) for pattern in inside for sign in (1, -1))


REFUSED, ENDS = refused_of(REACH), ends_of(REACH)


def any_coordinate(random, reach=REACH):
    """Of any accepted exponent, one in eight a zero."""
    if random.randrange(8) == 0:
        return random.choice((0.0, -0.0))
    return any_number(random, -reach, reach - 1)


def any_point(random):
    return any_coordinate(random), any_coordinate(random)


def grid_point(random, size, axes=2):
    """Of whole coordinates, so that three of them are often on one line; zeros have either sign."""
    return tuple(random.choice((-1.0, 1.0)) * random.randint(0, size) for _ in range(axes))


def chopped(random, points):
    """Points as a migration may have chopped them: to some decimals, or to some bits."""
    if random.randrange(2) == 0:
        decimals = random.choice((1, 2, 3, 6))
        return [tuple(round(coordinate, decimals) for coordinate in point) for point in points]
    bits = random.choice((10, 24, 29, 40))
    return [tuple(with_bits(coordinate, bits) for coordinate in point) for point in points]


def with_bits(number, bits):
    """The number with only its leading bits."""
    pattern = pattern_of(number)
    return float_of(pattern >> (52 - bits) << (52 - bits))


def scaled(random, points, reach=REACH):
    """The points with each axis times a power of two, which leaves every side as it is."""
    powers = [any_power(random, [abs(coordinate) for coordinate in axis if coordinate], reach) for axis in zip(*points)]
    return [tuple(map(math.ldexp, point, powers)) for point in points]


def any_power(random, magnitudes, reach):
    """A power of two that leaves accepted coordinates in their range; often one that takes them to its end."""
    # frexp has the exponent of the power of two above a number
    least = 1 - reach - math.frexp(min(magnitudes, default=1.0))[1]
    greatest = reach - math.frexp(max(magnitudes, default=1.0))[1]
    if least > greatest:
        return 0
    return random.choice((0, least, greatest, random.randint(least, greatest)))


def either_zero(random, points):
    """The points with zeros of either sign."""
    return [tuple(coordinate or random.choice((0.0, -0.0)) for coordinate in point) for point in points]


def patterns(points):
    """The patterns of points in turn, each x, y and its height if it has one."""
    return [pattern_of(coordinate) for point in points for coordinate in point]


def replaced(accepted, place, pattern):
    """The list with another pattern at one place."""
    return accepted[:place] + [pattern] + accepted[place + 1 :]


def asked_of(word, random, lists, refused=REFUSED):
    """A line for each list of coordinates, and after one in sixteen the same with refused ones."""
    for accepted in lists:
        yield word + spelled_list(random, accepted)
        if random.randrange(16) == 0:
            yield word + spelled_list(random, with_refused(random, accepted, refused))


def with_refused(random, accepted, refused=REFUSED):
    """Patterns with refused coordinates in one or two places."""
    changed = accepted
    for _ in range(random.randint(1, 2)):
        changed = replaced(changed, random.randrange(len(changed)), random.choice(refused))
    return changed
