"""Lists for the sum questions run, ceiling and plain: first notable ones, then random ones.

The lists are made as floats and handed on as patterns. Most are short: the time a run takes grows
with the square of the length, and what is hard about a sum is already so with few summands.
"""

import math
import sys

from questions.doubles import (
    NOT_FINITE, any_finite, any_number, any_significand, float_of, moved, pattern_of, spelled_list,
)
from questions.lines import with_damaged

LARGEST = sys.float_info.max
LEAST_NORMAL = sys.float_info.min
LEAST = 2.0**-1074
B = 1 + 2.0**-52
C = 0.25 + 2.0**-54
LONGEST = 1024

# from 01, from the examples of 004, and where a rule is easily misread
NOTABLE = [
    [1.0, -1.0],
    [1.0, 2.0**-60, -1.0],
    [1.0, -C, -C, -C, -C],
    [LARGEST, LARGEST, -LARGEST, -LARGEST],
    [3 + 2.0**-50, -B, -B, -B],  # 3 * B rounds up to the first
    [5217238486728575.0 * 2**5, 5217238486728575.0 * 2**5, 8591413602653375.0 * 2]
    + [-6980364834504767.0 * 2**5, -8564466927325181.0 * 2**3, -4523292875232383.0],
    [1.0, 1.0, -C, -0.25, -(2.0**-54), -(2.0**-54)],
    [2 + 2.0**-50 + 2.0**-51, -1 - 2.0**-51 - 2.0**-52, -0.5 - 2.0**-52, -0.5 - 2.0**-52],
    [0.0], [-0.0], [0.0, -0.0], [-0.0, 0.0, -0.0], [0.0] * LONGEST, [-0.0] * LONGEST, [-0.0] * (LONGEST + 1),
    [1.0], [-0.0, 1.0, 0.0], [2.0, -1.0, -0.0], [-0.0, 3.0, 0.0, -3.0, -0.0], [1.0, 1.0, -1.0], [-0.0, LEAST, -LEAST],
    [LARGEST], [LARGEST, -LARGEST], [LARGEST] + [-LARGEST] * 2, [LARGEST] + [-LARGEST / 2] * 3,
    [LARGEST] + [-LARGEST] * (LONGEST - 1), [LARGEST, -LARGEST] * (LONGEST // 2), [LARGEST, -LEAST],
    [LEAST, -LEAST], [LEAST, LEAST, -2 * LEAST], [LEAST_NORMAL, LEAST - LEAST_NORMAL, -LEAST], [LEAST] * LONGEST,
    [2.0] + [-(2.0**-9)] * (LONGEST - 1), [2.0, -2.0] + [LEAST] * (LONGEST - 2), [2.0, -LEAST] * (LONGEST // 2),
]

LENGTHS = list(range(LONGEST + 6)) + [2048, 5000]

# after the word
UNCLEAR = (
    b" ", b" 0", b" x", b"s", b" 3ff0000000000000 ", b"  3ff0000000000000",
    1024 * b" 3ff0000000000000" + b" 0", 1026 * b" 7ff0000000000000" + b" x",
)


def questions_of(word, random):
    """The questions of a word that takes a list and nothing else."""
    asked = (word + spelled_list(random, patterns) for patterns in lists(random))
    return with_damaged(random, (word + end for end in UNCLEAR), asked)


def lists(random):
    """Lists of patterns, without end."""
    for numbers in NOTABLE:
        yield [pattern_of(number) for number in numbers]
        yield [pattern_of(-number) for number in numbers]
        yield [pattern_of(number) for number in random.sample(numbers, len(numbers))]
    for length in LENGTHS:
        patterns = [pattern_of(any_number(random, 0, 60)) for _ in range(length)]
        yield patterns
        if length % 8 == 1 or length > LONGEST:
            yield with_not_finite(random, patterns)
    while True:
        length = random.choice(random.choices(LENGTH_RANGES, LENGTH_WEIGHTS)[0])
        numbers = random.choice(SHAPES)(random, length)
        yield from variants(random, numbers[:length])


LENGTH_RANGES = (range(13), range(13, 65), range(65, LONGEST + 1), range(LONGEST + 1, LONGEST + 500))
LENGTH_WEIGHTS = (880, 90, 25, 5)


def variants(random, numbers):
    """The numbers with some zeros, or scaled, negated, permuted; or with one that is not finite."""
    if random.randrange(4) == 0:
        numbers = scaled(random, numbers)
    if random.randrange(4) == 0:
        numbers = [number if random.randrange(4) else random.choice((0.0, -0.0)) for number in numbers]
    if random.randrange(2) == 0:
        numbers = [-number for number in numbers]
    patterns = [pattern_of(number) for number in numbers]
    yield patterns
    if random.randrange(4) == 0:
        yield random.sample(patterns, len(patterns))
    if patterns and random.randrange(16) == 0:
        yield with_not_finite(random, patterns)


def with_not_finite(random, patterns):
    """The list with infinities or NaNs in one or two places."""
    changed = list(patterns)
    for _ in range(random.randint(1, 2)):
        changed[random.randrange(len(changed))] = random.choice(NOT_FINITE)
    return changed


def scaled(random, numbers):
    """The numbers times a power of two that leaves them finite; the least may lose bits."""
    top = max((math.frexp(number)[1] for number in numbers), default=0)
    power = random.choice((-1074 - top, -1022 - top, 1024 - top, random.randint(-1074 - top, 1024 - top)))
    return [math.ldexp(number, power) for number in numbers]


# ---- shapes: about as many numbers as asked for


def scattered(random, length):
    return [float_of(any_finite(random)) for _ in range(length)]


def close(random, length):
    spread = random.choice((0, 1, 4, 20, 53, 60))
    return [any_number(random, 0, spread) for _ in range(length)]


def cancelling(random, length):
    """004, 'Test data generation': with every number of the second half the sum grows smaller."""
    spread = random.choice((4, 16, 64, 128, 500))
    half = length // 2
    numbers = [any_number(random, 0, spread) for _ in range(half)]
    for left in range(length - half):
        power = spread * (length - half - 1 - left) // (length - half)
        numbers.append(any_number(random, power, power) - math.fsum(numbers))
    return numbers


def vanishing(random, length):
    """004, 'zero sums': a summand is made the negated sum of the others until the sum is 0."""
    numbers = cancelling(random, length)
    for _ in range(20):
        total = math.fsum(numbers)
        if total == 0:
            break
        at = random.randrange(length)
        numbers[at] = 0.0
        numbers[at] = -math.fsum(numbers)
    return numbers


def multiples(random, length):
    """k * c with k times -c, as Ratschek and Rokne tested, and something small that decides."""
    numbers = [any_number(random, -60, -50)]
    while len(numbers) < length:
        c, k = any_number(random, -20, 20), random.choice((1, 2, 4, 8, 3, 7))
        numbers += [k * c] + [-c] * k
    return numbers


def in_parts(random, length):
    """Two numbers that cancel or nearly so, again and again parted into summands."""
    number = any_number(random, 0, 20)
    numbers = [number, -moved(random, number, random.choice((0, 1)))]
    while len(numbers) < length:
        whole = numbers.pop(random.randrange(len(numbers)))
        part = any_number(random, -60, 20)
        x = whole - part
        # Knuth's roundoff, so that part + x + y is the whole
        seen = x - whole
        y = (whole - (x - seen)) + (-part - seen)
        numbers += [part, x, y]
    return numbers


def of_one_magnitude(random, length):
    number = any_number(random, 0, 0)
    most = random.choice((0, 0, 1, 2))
    return [random.choice((-1, 1)) * moved(random, number, most) for _ in range(length)]


def at_the_look(random, length):
    """One number that is about n times the others, which are negative."""
    b = any_significand(random)
    n = max(length - 1, 1)
    most = random.choice((0, 0, 1))
    return [moved(random, n * b, random.choice((0, 1, 3)))] + [-moved(random, b, most) for _ in range(n)]


def ladder(random, length):
    """Pairs that nearly cancel, each pair far below the one before."""
    gap = random.choice((1, 10, 40, 43, 50, 53, 54, 60, 100))
    numbers = []
    while len(numbers) < length:
        number = any_number(random, 0, 0) * 2.0 ** -min(gap * len(numbers), 900)
        numbers += [number, -moved(random, number, random.choice((0, 1, 1, 8)))]
    return numbers


def huge(random, length):
    """The largest doubles, and parts of them, so that n times b may become infinite."""
    tops = [LARGEST - down * 2.0**971 for down in range(3)]
    return [random.choice((-1, 1)) * random.choice(tops) / random.choice((1, 1, 2, 3)) for _ in range(length)]


def tiny(random, length):
    """Subnormals, and the least normal numbers."""
    units = (1, 2, 3, 2**52 - 1, 2**52, random.getrandbits(20), random.getrandbits(53))
    return [random.choice((-1, 1)) * LEAST * random.choice(units) for _ in range(length)]


def mixed(random, length):
    """Of two other shapes, a part each."""
    first, second = random.sample(SHAPES[:-1], 2)
    part = random.randint(0, length)
    return first(random, part)[:part] + second(random, length - part)


SHAPES = (
    scattered, close, cancelling, vanishing, multiples, in_parts, of_one_magnitude, at_the_look, ladder, huge, tiny,
    mixed,
)
