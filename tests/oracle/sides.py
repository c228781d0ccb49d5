"""01, 'The side of a point': three stages, each operation rounded in integers.

Every sign is compared with that of the exact determinant.
"""

from doubles import coordinates, pattern_of, sign_of, units
from promises import promise
from rounding import UNIT, is_finite_double, nearest, product
from sums import run
from words import LARGEST_COUNT, Unclear, read_doubles

FILTER = units(0x3CD0028010000002)  # 8.8872057372592758e-16, the constant of 001
MOST_STEPS = 480


def exact_sign(p, q, r):
    """The sign of the determinant of three points, each a pair of values."""
    (px, py), (qx, qy), (rx, ry) = p, q, r
    return sign_of((qx - px) * (ry - py) - (qy - py) * (rx - px))


def side(p, q, r):
    """Sign, stage and steps for three points, each a pair of values."""
    sign, stage, steps = staged(*p, *q, *r)
    promise(sign == exact_sign(p, q, r), "the side is the sign of the exact determinant")
    promise(steps <= MOST_STEPS, "a side takes at most 480 steps")
    return sign, stage, steps


def staged(px, py, qx, qy, rx, ry):
    pqx, pqy = nearest(qx - px), nearest(qy - py)
    prx, pry = nearest(rx - px), nearest(ry - py)
    X, Y = max(abs(pqx), abs(prx)), max(abs(pqy), abs(pry))
    if X == 0 or Y == 0:
        return 0, 1, 0

    E = product(product(FILTER, X), Y)
    D = nearest(product(pqx, pry) - product(pqy, prx))
    if D > E:
        return 1, 2, 0
    if D < -E:
        return -1, 2, 0

    factors = [(qx, ry), (-qx, py), (-px, ry), (-qy, rx), (qy, px), (py, rx)]
    summands = [summand for pair in factors for summand in exact_product(*pair)]
    sign, steps = run([pattern_of(summand) for summand in summands], LARGEST_COUNT)
    return sign, 3, steps


def exact_product(first, second):
    """The rounded product and its roundoff."""
    rounded = product(first, second)
    # the exact product, and what is left of it, is in units of 2^-2148: 2^1074 of them make one unit
    left = first * second - (rounded << UNIT)
    roundoff = left >> UNIT
    promise(roundoff << UNIT == left and is_finite_double(roundoff), "the roundoff of a product is a double")
    return rounded, roundoff


def answer_side(words):
    """side D D D D D D"""
    if len(words) != 6:
        raise Unclear
    px, py, qx, qy, rx, ry = coordinates(read_doubles(words))
    return b"side %d %d %d" % side((px, py), (qx, qy), (rx, ry))
