"""Questions of the kind apart: one well-formed double each."""

from itertools import chain

from questions.doubles import any_pattern, every_exponent, notable, spelled


def questions(random):
    for pattern in chain(notable(), every_exponent(random)):
        yield question(random, pattern)
    while True:
        yield question(random, any_pattern(random))


def question(random, pattern):
    return b"apart " + spelled(random, pattern)
