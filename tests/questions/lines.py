"""Lines that are not as a question should be, for every kind."""

ONE = b" 3ff0000000000000"
INFINITY = b" 7ff0000000000000"


def misspelled(word, doubles, numbers, words):
    """Lines that are unclear where a word takes so many doubles: with others in number, other words, or what is no double."""
    return (
        word, word + b" ", *(word + number * ONE for number in (doubles - 1, doubles + 1, *numbers)),
        word + doubles * ONE + b" ", word + b" " + doubles * ONE, word + doubles * b" 0", word + b" %d" % doubles + doubles * ONE,
        *(other + doubles * ONE for other in words), word + (doubles - 1) * INFINITY,
        word + (doubles - 1) * INFINITY + b" x", word + (doubles * INFINITY)[:-1], word + doubles * INFINITY + b" x",
        word + (doubles + 1) * INFINITY,
        word + 1100 * ONE, word + 1112 * ONE, word + 2200 * INFINITY + b" x",
    )


def any_bytes(random, length):
    """Any bytes but the one that ends a line."""
    return random.getrandbits(8 * length).to_bytes(length, "little").replace(b"\n", b"\x00")


def damage(random, line):
    """A line with a byte of it replaced, or one put in, or one left out."""
    at = random.randrange(len(line) + 1)
    new = random.choice((b"", b" ", b"0", b"\t", b"\r", any_bytes(random, 1)))
    return line[:at] + new + line[at + random.randrange(2) :]


def with_damaged(random, always, lines):
    """The lines that are always asked, then the others, and after one in sixteen of these a damaged copy."""
    yield from always
    for line in lines:
        yield line
        if random.randrange(16) == 0:
            yield damage(random, line)
