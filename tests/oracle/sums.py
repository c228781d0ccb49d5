"""01, 'The sum, step by step': the look, the step, the run by budget, the ceiling, the plain sum.

A list is held twice: its patterns, which tell the two zeros apart, and their values in units.
"""

import heaps
from doubles import is_finite, pattern_of, sign_of, units
from promises import promise
from rounding import is_finite_double, nearest
from words import Refused, Unclear, read_count, read_doubles

LONGEST_LIST = 1024
BITS_PER_STEP = 43
TOTAL_BITS = 33 * 64  # of the plain sum's total, two's complement


def accepted_values(patterns):
    """The values of an accepted list."""
    if len(patterns) > LONGEST_LIST:
        raise Refused(1, 0)
    for index, pattern in enumerate(patterns):
        if not is_finite(pattern):
            raise Refused(2, index)
    return [units(pattern) for pattern in patterns]


def look(values):
    """The sign, or None while the two extremes do not decide it."""
    positive = [value for value in values if value > 0]
    negative = [value for value in values if value < 0]
    if not positive and not negative:
        return 0
    if not negative:
        return 1
    if not positive:
        return -1
    a, b = max(positive), -min(negative)
    m, n = len(positive), len(negative)
    if a > nearest(n * b):
        return 1
    if b > nearest(m * a):
        return -1
    return None


def step(patterns, values):
    """One step of an undecided list; among equal entries the lowest index is taken."""
    greatest, least = max(values), min(values)
    larger, smaller = values.index(greatest), values.index(least)
    if greatest < -least:
        larger, smaller = smaller, larger
    total = greatest + least
    x = nearest(total)
    y = total - x
    promise(is_finite_double(y), "the roundoff of a sum is a double")
    values[larger], values[smaller] = x, y
    patterns[larger], patterns[smaller] = pattern_of(x), pattern_of(y)


def run(patterns, budget):
    """Sign, or None if undecided, and steps taken; the accepted list is left as it then stands."""
    values = accepted_values(patterns)
    total, limit = sum(values), ceiling(values)
    heaps_sign, iterations = heaps.sign_and_iterations(patterns)
    steps = 0
    sign = look(values)
    while sign is None and steps < budget:
        step(patterns, values)
        steps += 1
        sign = look(values)
    promise(sum(values) == total, "the exact total stays")
    promise(iterations <= limit, "the published method stays within the ceiling")
    if sign is None:
        promise(steps == budget < iterations, "the published method is undecided too")
        promise(budget < limit, "a budget at the ceiling decides")
    else:
        promise((sign, steps) == (heaps_sign, iterations), "sign and steps are those of the published method")
        promise(sign == sign_of(total), "the sign is that of the exact sum")
    return sign, steps


def ceiling(values):
    """For each entry its length in bits, in the power of two that divides them all, by 43; added."""
    union = 0  # of all bits of all magnitudes
    for value in values:
        union |= abs(value)
    lowest = union & -union
    return sum(-(-(abs(value) // lowest).bit_length() // BITS_PER_STEP) for value in values if value != 0)


def plain(values):
    """The sign of the total."""
    total = sum(values)
    promise(-(2 ** (TOTAL_BITS - 1)) <= total < 2 ** (TOTAL_BITS - 1), "33 words hold the total")
    return sign_of(total)


def answer_run(words):
    """run BUDGET D ..."""
    if not words:
        raise Unclear
    budget, patterns = read_count(words[0]), read_doubles(words[1:])
    sign, steps = run(patterns, budget)
    answer = [b"run", b"undecided" if sign is None else b"%d" % sign, b"%d" % steps]
    return b" ".join(answer + [b"%016x" % pattern for pattern in patterns])


def answer_ceiling(words):
    """ceiling D ..."""
    return b"ceiling %d" % ceiling(accepted_values(read_doubles(words)))


def answer_plain(words):
    """plain D ..."""
    return b"plain %d" % plain(accepted_values(read_doubles(words)))
