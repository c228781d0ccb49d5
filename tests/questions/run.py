"""Questions of the kind run: a budget and a list."""

from questions.doubles import SIGN, spelled_list
from questions.lines import with_damaged
from questions.lists import lists

LARGEST_COUNT = 2**32 - 1

UNCLEAR = (
    b"run", b"run ", b"run 00", b"run 01 3ff0000000000000", b"run -1", b"run +1", b"run 1.0", b"run x",
    b"run 4294967296", b"run 42949672950", b"run 3ff0000000000000", b"run 0000000000000000",
    b"run 0 1", b"run 0 3ff0000000000000 ", b"run 0  3ff0000000000000", b"Run 0", b"run 1 undecided",
    b"run 1" + 1024 * b" 3ff0000000000000" + b" x", b"run 1" + 1025 * b" 7ff0000000000000" + b" 3ff000000000000",
    b"run 1" + 5000 * b" 3ff0000000000000" + b" 3ff00000000000000", b"run 4294967296" + 1026 * b" 3ff0000000000000",
)


def questions(random):
    return with_damaged(random, UNCLEAR, asked(random))


def asked(random):
    for patterns in lists(random):
        words = spelled_list(random, patterns)
        for budget in budgets(random, patterns):
            yield b"run %d%s" % (budget, words)


def budgets(random, patterns):
    """Of a short list two budgets, of a long one one, which more often ends the run."""
    limit = ceiling(patterns)
    few = random.choice((0, 1, 2, 3, random.randint(0, 12)))
    beyond = random.choice((LARGEST_COUNT - 1, LARGEST_COUNT, 2 ** random.randrange(32)))
    many = random.choice((max(limit - 1, 0), limit, limit + 1, len(patterns), beyond))
    if len(patterns) < 100:
        return few, many
    return (random.choice((few, many, many, random.randint(0, len(patterns)))),)


def ceiling(patterns):
    """The ceiling of a list, or any number if it is not accepted: it only decides what is asked."""
    magnitudes = [magnitude(pattern) for pattern in patterns]
    union = 0
    for value in magnitudes:
        union |= value
    zeros = (union & -union).bit_length() - 1
    return sum((value.bit_length() - zeros + 42) // 43 for value in magnitudes if value)


def magnitude(pattern):
    """In units of 2^-1074; an infinity or NaN as if its exponent were one more."""
    field, fraction = (pattern % SIGN) >> 52, pattern % 2**52
    return fraction if field == 0 else (2**52 + fraction) << (field - 1)
