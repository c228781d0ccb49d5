"""Sides, against the cases of 01 that are checked by hand, Python's floats and Python's fractions."""

import random
import unittest
from fractions import Fraction
from itertools import permutations

import sides
from doubles import coordinates, units
from floats import float_of, pattern_of, patterns_of, words_of
from sides import answer_side, exact_product
from words import Refused, Unclear

FILTER = 8.8872057372592758e-16

# the points, then sign, stage and steps
BY_HAND = [
    ((0, 0), (1, 0), (0, 1), (1, 2, 0)),
    ((0, 0), (1, 1), (2, 2), (0, 3, 1)),
    ((0, 0), (1, 1), (1, 1 + 2**-50), (1, 3, 0)),
    ((0, 0), (1, 1), (1, 1 + 2**-49), (1, 2, 0)),
    ((3, 7), (3, 7), (3, 7), (0, 1, 0)),
    ((0.0, -0.0), (-0.0, 5), (0.0, -5), (0, 1, 0)),  # X is 0
    ((1, 2), (5, 2), (-3, 2), (0, 1, 0)),  # Y is 0
    ((1, 2), (1, 2), (3, 4), (0, 3, 3)),  # 4, -2, -4, -6, 2, 6 and zeros
    ((0, 0), (2, 2), (1, 1 + 2**-50), (1, 3, 0)),
    ((1, 1 + 2**-50), (2, 2), (0, 0), (-1, 2, 0)),
]


def side(*points):
    values = coordinates(patterns_of([float(coordinate) for point in points for coordinate in point]))
    return sides.side(*zip(values[::2], values[1::2]))


class ByHand(unittest.TestCase):
    def test_signs_stages_and_steps(self):
        for *points, expected in BY_HAND:
            with self.subTest(points):
                self.assertEqual(side(*points), expected)

    def test_filter_is_the_constant_of_001(self):
        self.assertEqual(pattern_of(FILTER), 0x3CD0028010000002)
        self.assertEqual(sides.FILTER, units(pattern_of(FILTER)))

    def test_refusals(self):
        for refused in (2.0**400 + 2.0**348, 2.0**-400 - 2.0**-453, 5e-324, float("inf"), float("nan")):
            for place in range(6):
                numbers = [1.0] * place + [refused] * (6 - place)
                with self.assertRaises(Refused) as refusal:
                    answer_side(words_of(numbers))
                self.assertEqual((refusal.exception.number, refusal.exception.place), (3, place))

    def test_lines(self):
        one, end, least = words_of([1.0, 2.0**400, -(2.0**-400)])
        self.assertEqual(answer_side([end, one, one, end, least, least]), b"side 1 2 0")
        for words in ([], [one] * 5, [one] * 7, [one] * 5 + [b"x"], [one] * 5 + [b""]):
            with self.assertRaises(Unclear):
                answer_side(words)


class OtherOpinions(unittest.TestCase):
    def points(self, seeded):
        """Three points, often near one line."""
        p, q = [[seeded.choice((seeded.random(), seeded.randint(-9, 9) / 8)) for _ in range(2)] for _ in range(2)]
        share = seeded.choice((seeded.random(), seeded.randint(-3, 3)))
        near = [start + share * (end - start) for start, end in zip(p, q)]
        return [p, q, near if seeded.randrange(4) else [seeded.random(), seeded.random()]]

    def test_signs_are_those_of_fractions(self):
        seeded = random.Random(754)
        for _ in range(3000):
            points = self.points(seeded)
            (px, py), (qx, qy), (rx, ry) = [map(Fraction, point) for point in points]
            exact = (qx - px) * (ry - py) - (qy - py) * (rx - px)
            sign, _, _ = side(*points)
            self.assertEqual(sign, (exact > 0) - (exact < 0))

    def test_stages_are_those_of_floats(self):
        seeded = random.Random(754)
        for _ in range(1000):
            points = self.points(seeded)
            for (px, py), (qx, qy), (rx, ry) in permutations(points):
                X, Y = max(abs(qx - px), abs(rx - px)), max(abs(qy - py), abs(ry - py))
                E = FILTER * X * Y
                D = (qx - px) * (ry - py) - (qy - py) * (rx - px)
                stage = 1 if X == 0 or Y == 0 else 2 if abs(D) > E else 3
                self.assertEqual(side((px, py), (qx, qy), (rx, ry))[1], stage)

    def test_swapping_two_points_turns_the_sign_round(self):
        seeded = random.Random(754)
        for _ in range(300):
            p, q, r = self.points(seeded)
            self.assertEqual({side(p, q, r)[0], side(q, r, p)[0], side(r, p, q)[0]}, {side(p, q, r)[0]})
            self.assertEqual({side(q, p, r)[0], side(r, q, p)[0], side(p, r, q)[0]}, {-side(p, q, r)[0]})

    def test_products_are_exact_at_both_ends_of_the_range(self):
        seeded = random.Random(754)
        for _ in range(3000):
            exponents = [seeded.choice((-400, 399, seeded.randint(-400, 399))) for _ in range(2)]
            first, second = [(1 + seeded.random()) * 2.0**exponent for exponent in exponents]
            rounded, roundoff = exact_product(units(pattern_of(first)), units(pattern_of(second)))
            self.assertEqual(float_of(sides.pattern_of(rounded)), first * second)
            self.assertEqual(Fraction(rounded + roundoff, 2**1074), Fraction(first) * Fraction(second))
