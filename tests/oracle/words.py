"""How a question's words are read: doubles, counts, rooms and bytes; and the two ways not to answer.

The expressions list the accepted digits, because Python's own int() also takes signs, prefixes,
underscores and spaces around a number.
"""

import re

DOUBLE = re.compile(rb"[0-9a-fA-F]{16}")
COUNT = re.compile(rb"0|[1-9][0-9]{0,9}")
BYTES = re.compile(rb"[0-9a-fA-F]+")
LARGEST_COUNT = 2**32 - 1


class Unclear(Exception):
    """The line is not of a known form."""


class Refused(Exception):
    """The question is of a known form, and 01's table refuses it; a plan has a zone's number beside the place."""

    def __init__(self, number, place, *zone):
        super().__init__(number, place, *zone)
        self.number = number
        self.place = place


def read_double(word):
    """The 64-bit pattern that 16 hexadecimal digits of either case spell."""
    if not DOUBLE.fullmatch(word):
        raise Unclear
    return int(word, 16)


def read_doubles(words):
    return [read_double(word) for word in words]


def read_count(word):
    """A decimal number below 2^32, with no sign and no leading zero."""
    if not COUNT.fullmatch(word) or int(word) > LARGEST_COUNT:
        raise Unclear
    return int(word)


def read_room(word, largest):
    """The count of what is lent or held; the protocol has a largest one for each word."""
    room = read_count(word)
    if room > largest:
        raise Unclear
    return room


def read_bytes(word):
    """The bytes that pairs of hexadecimal digits spell; at least one, as a word is not empty."""
    if not BYTES.fullmatch(word) or len(word) % 2 == 1:
        raise Unclear
    return bytes.fromhex(word.decode("ascii"))
