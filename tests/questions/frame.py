"""Questions of the kind frame: lines that are broken, copied or very long, with good ones between.

A good line after a broken one shows that the tool found where the broken one ended.
"""

from questions import apart
from questions.doubles import any_pattern
from questions.lines import any_bytes, damage

DIGITS = b"3ff0000000000000"
GOOD = b"apart " + DIGITS
HEX_DIGITS = b"0123456789abcdefABCDEF"

WRONG_WORDS = (
    b"apart", b"Apart " + DIGITS, b"APART " + DIGITS, b"apar " + DIGITS, b"apartt " + DIGITS,
    b"apart" + DIGITS, b"apart," + DIGITS, DIGITS, b"apart apart", b"unclear", b"refused 2 0", b"a",
    GOOD + b" " + DIGITS, GOOD + b" x", GOOD + b" #", GOOD + b"#",
)

WRONG_DIGITS = (
    GOOD[:-1], GOOD + b"0", b"apart 0", b"apart 00" + DIGITS, b"apart " + DIGITS + DIGITS,
    b"apart 0x" + DIGITS[2:], b"apart 0X" + DIGITS, b"apart +" + DIGITS[1:], b"apart -" + DIGITS[1:],
    b"apart 3ff0_0000_0000_0", b"apart 3ff000000000000g", b"apart 3ff000000000000G",
    b"apart /ff0000000000000", b"apart :ff0000000000000", b"apart @ff0000000000000",
    b"apart `ff0000000000000", b"apart 1.0", b"apart inf", b"apart nan", b"apart 1",
)

WRONG_SPACES = (
    b" ", b"  ", b" " + GOOD, GOOD + b" ", GOOD + b"  ", b"apart  " + DIGITS, b"apart ", b"apart   ",
    b"\t", b"\t" + GOOD, GOOD + b"\t", b"apart\t" + DIGITS, b"apart \t" + DIGITS[1:],
    b"apart\x0b" + DIGITS, b"apart\x0c" + DIGITS, b" #", b" # comment", b"\t#",
)

WRONG_BYTES = (
    b"\r", b"\r" + GOOD, GOOD + b"\r", b"apart\r" + DIGITS, b"apart \r" + DIGITS[1:],
    b"\x00", b"\x00" + GOOD, GOOD + b"\x00", b"apart\x00" + DIGITS, b"apart \x00" + DIGITS[1:],
    b"\x80", b"\xff", GOOD + b"\x80", GOOD + b"\xff", b"apart\xa0" + DIGITS, b"apart \xb3" + DIGITS[1:],
    b"\xef\xbb\xbf" + GOOD, b"apart \xef\xbc\x93" + DIGITS[3:], b"\x04", b"\x1a", b"\x7f", GOOD + b"\x1a",
)

COPIED = (
    b"", b"#", b"##", b"# " + GOOD, b"#" + GOOD, b"#\r", b"#\x00", b"#\t ", b"# \x80\xfe\xff",
    b"#" + bytes(byte for byte in range(256) if byte != ord("\n")),
)

# A tool that reads by the buffer is likeliest to fail at its edges, around powers of two.
LENGTHS = [2**power + more for power in range(4, 17) for more in (-1, 0, 1)] + [100_000]


def questions(random):
    for line in WRONG_WORDS + WRONG_DIGITS + WRONG_SPACES + WRONG_BYTES + COPIED:
        yield line
        yield GOOD
    for length in LENGTHS:
        for line in long_lines(random, length):
            yield line
            yield GOOD
    while True:
        shape = random.choices(SHAPES, WEIGHTS)[0]
        yield shape(random)


def long_lines(random, length):
    """Lines of about this length; most begin well, so that only their end tells what they are."""
    return (
        b"#" + any_bytes(random, length - 1),
        any_bytes(random, length),
        b"a" * length,
        b" " * length,
        b"apart " + b"0" * length,
        b"apart " + b"0" * length + DIGITS,
        b"apart " * (length // 6) + DIGITS,
        b"apart" + (b" " + DIGITS) * (length // 17 + 1),
        GOOD + b" " * length,
        GOOD + b" " * length + DIGITS,
    )


# ---- random lines


def good(random):
    return apart.question(random, any_pattern(random))


def damaged(random):
    return damage(random, good(random))


def miscounted(random):
    """A double of too few or too many digits."""
    count = random.choice((1, 8, 14, 15, 17, 18, 31, 32, 33))
    return b"apart " + bytes(random.choices(HEX_DIGITS, k=count))


def letters(random):
    return bytes(random.choices(b"apart run side zone", k=random.randrange(1, 30)))


def noise(random):
    return any_bytes(random, random.randrange(60))


def comment(random):
    return b"#" + noise(random)


def long_line(random):
    return random.choice(long_lines(random, random.randrange(100_000, 200_000)))


SHAPES = (good, damaged, miscounted, letters, noise, comment, long_line)
WEIGHTS = (500, 1000, 200, 200, 100, 300, 1)
