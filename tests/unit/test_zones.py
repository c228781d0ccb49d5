"""Zones, against places seen on paper."""

import unittest
from random import Random

from floats import words_of
from words import Refused, Unclear
from zones import answer_zone, border_edge, times_round

SQUARE = [0, 0, 4, 0, 4, 4, 0, 4]
DIAMOND = [2, 0, 4, 2, 2, 4, 0, 2]
BOW = [0, 0, 4, 4, 4, 0, 0, 4]  # crosses itself at (2, 2)
STAR = [0, 6, 10, 6, 2, 0, 5, 10, 8, 0]  # goes round its middle twice

BY_HAND = [
    # the releases of 01's desk
    ((2, 2), SQUARE, b"inside"),
    ((4, 1), SQUARE, b"border 1"),
    ((5, 5), SQUARE, b"outside"),
    # the first of two edges; corner 0 is on edge 0 and on the last
    ((0, 0), SQUARE, b"border 0"),
    ((-0.0, -0.0), SQUARE, b"border 0"),
    ((4, 0), SQUARE, b"border 0"),
    ((0, 4), SQUARE, b"border 2"),
    ((0, 1), SQUARE, b"border 3"),
    # in line with an edge, and not on it
    ((5, 0), SQUARE, b"outside"),
    ((4, -1), SQUARE, b"outside"),
    ((-1, 4), SQUARE, b"outside"),
    # level with a corner
    ((2, 2), DIAMOND, b"inside"),
    ((-1, 2), DIAMOND, b"outside"),
    ((5, 2), DIAMOND, b"outside"),
    ((1, 4), DIAMOND, b"outside"),
    ((1, 0), DIAMOND, b"outside"),
    ((1, 1), DIAMOND, b"border 3"),
    # crossing itself, and twice round
    ((1, 2), BOW, b"inside"),
    ((2, 1), BOW, b"outside"),
    ((3, 2), BOW, b"inside"),
    ((2, 2), BOW, b"border 0"),
    ((2, 2), SQUARE * 2, b"inside"),
    ((4, 1), SQUARE * 2, b"border 1"),
    ((2, 2), SQUARE * 3, b"inside"),
    ((5, 2), SQUARE * 2, b"outside"),
    # twice round the inner square and once round the outer one; with the inner one the other way round, a hole
    ((4, 5), [0, 0, 9, 0, 9, 9, 0, 9, 0, 0, 3, 3, 6, 3, 6, 6, 3, 6, 3, 3], b"inside"),
    ((4, 5), [0, 0, 9, 0, 9, 9, 0, 9, 0, 0, 3, 3, 3, 6, 6, 6, 6, 3, 3, 3], b"outside"),
    ((1, 5), [0, 0, 9, 0, 9, 9, 0, 9, 0, 0, 3, 3, 3, 6, 6, 6, 6, 3, 3, 3], b"inside"),
    # once round and once back
    ((2, 2), SQUARE + [0, 0, 0, 4, 4, 4, 4, 0], b"outside"),
    # a star in one line: its middle and one of its points
    ((5, 4), STAR, b"inside"),
    ((5, 8), STAR, b"inside"),
    ((1, 1), STAR, b"outside"),
    ((5, 1), STAR, b"outside"),
    ((5, 6), STAR, b"border 0"),
    # two loops that lie over each other, gone round in opposite ways
    ((3, 3), [0, 0, 4, 0, 4, 4, 0, 4, 0, 0, 2, 2, 2, 6, 6, 6, 6, 2, 2, 2], b"outside"),
    ((1, 3), [0, 0, 4, 0, 4, 4, 0, 4, 0, 0, 2, 2, 2, 6, 6, 6, 6, 2, 2, 2], b"inside"),
    ((5, 5), [0, 0, 4, 0, 4, 4, 0, 4, 0, 0, 2, 2, 2, 6, 6, 6, 6, 2, 2, 2], b"inside"),
    # without an inside
    ((1, 1), [1, 1] * 3, b"border 0"),
    ((1, 2), [1, 1] * 3, b"outside"),
    ((3, 3), [0, 0, 1, 1, 4, 4], b"border 1"),
    ((5, 5), [0, 0, 1, 1, 4, 4], b"outside"),
    # a corner that stands there twice is an edge of its own
    ((4, 4), [0, 0, 4, 0, 9, 9, 4, 4, 4, 4, 0, 4], b"border 2"),
    ((0, 0), [0, 0, 0, 0, 4, 0, 4, 4], b"border 0"),
    ((2, 2), SQUARE * 16, b"inside"),
]

# seen on paper; backwards the number is turned round, twice over it is doubled
TIMES_ROUND = [
    ((1, 1), SQUARE, 1),
    ((5, 1), SQUARE, 0),
    ((1, 2), BOW, 1),
    ((3, 2), BOW, -1),
    ((2, 1), BOW, 0),
    ((5, 4), STAR, -2),
    ((5, 8), STAR, -1),
]

REFUSED = [
    ([1, 1], 4, 0),
    ([1, 1, 1], 5, 0),
    ([1, 1, 0, 0, 4, 0], 4, 0),
    ([1, 1, 0, 0, 4, 0, 4], 5, 0),
    ([1, 1] + [0, 0] * 65, 1, 0),
    ([1, 1] + [0, 0] * 65 + [0], 5, 0),
    ([float("inf"), 1, 0], 5, 0),
    ([float("inf"), 1], 4, 0),
    ([float("inf"), 1] + [0, 0] * 65, 1, 0),
    ([1, float("nan")] + SQUARE, 3, 1),
    ([1, 1, 2.0**401] + SQUARE[1:], 3, 2),
    ([1, 1] + [0, 0] * 63 + [0, 2.0**-401], 3, 129),
]


def between_two_lines(random):
    """The corners of a line that goes from left to right and back above it, and never meets itself."""
    lower = [(x, random.randint(0, 9)) for x in range(random.randint(2, 9))]
    upper = [(x, y + random.randint(1, 3)) for x, y in lower]
    return lower + upper[::-1]


class Zones(unittest.TestCase):
    def test_places_by_hand(self):
        for point, corners, place in BY_HAND:
            with self.subTest(f"{point} {corners[:12]}"):
                self.assertEqual(answer_zone(words_of([*point, *corners])), b"zone " + place)

    def test_turned_and_reversed_zones(self):
        for point, corners, place in BY_HAND:
            pairs = list(zip(corners[::2], corners[1::2]))
            for first in range(len(pairs)):
                for way in (1, -1):
                    turned = (pairs[first:] + pairs[:first])[::way]
                    got = answer_zone(words_of([*point] + [value for pair in turned for value in pair]))
                    self.assertEqual(got.split()[1], place.split()[0])

    def test_how_often_it_goes_round(self):
        for point, corners, times in TIMES_ROUND:
            pairs = list(zip(corners[::2], corners[1::2]))
            with self.subTest(f"{point} {corners[:12]}"):
                self.assertEqual(times_round(pairs, point), times)
                self.assertEqual(times_round(pairs[::-1], point), -times)
                self.assertEqual(times_round(pairs * 2, point), 2 * times)

    def test_zones_that_do_not_cross_themselves(self):
        """What they go round, they go round once: so odd or even, the rule before, says the same of them."""
        random = Random(4)
        for _ in range(400):
            zone = between_two_lines(random)[:: random.choice((1, -1))]
            for point in [(random.randint(-1, 9), random.randint(-1, 12)) for _ in range(20)]:
                if border_edge(zone, point) is None:
                    self.assertLessEqual(abs(times_round(zone, point)), 1)

    def test_refusals(self):
        for numbers, number, place in REFUSED:
            with self.subTest(numbers[:8]), self.assertRaises(Refused) as refusal:
                answer_zone(words_of(numbers))
            self.assertEqual((refusal.exception.number, refusal.exception.place), (number, place))

    def test_lines(self):
        one = words_of([1.0])
        for words in ([], one, one * 8 + [b""], one * 140 + [b"x"]):
            with self.assertRaises(Unclear):
                answer_zone(words)
