"""Planes, against signs and orders written by hand, and against Python's fractions."""

import random
import unittest
from fractions import Fraction
from itertools import permutations

import planes
from doubles import coordinates, units
from floats import pattern_of, patterns_of, words_of
from planes import answer_plane, opened, products
from words import Refused, Unclear

CORNERS = [(0, 0, 0), (1, 0, 0), (0, 1, 0), (0, 0, 1)]
LEVEL = [(1, 1, 5), (3, 1, 5), (1, 4, 5)]  # counter-clockwise, seen from above

# the points, then sign and steps
BY_HAND = [
    (*CORNERS, (-1, 0)),
    (CORNERS[1], CORNERS[0], *CORNERS[2:], (1, 0)),
    ((-0.0, 0, -0.0), (-0.0, -0.0, 0), (0, 0, 0), (0, -0.0, 0), (0, 0)),
    (*[(1, 1, 1)] * 4, (0, 12)),  # twelve times 1, twelve times -1
    ((2, 0, 3), (0, 5, 7), (1, 1, 1), (1, 1, 1), (0, 7)),  # 2, 3, 5, 7, 10, 14 and 15, each with both signs
]

# which points give x, y and height, after the product's sign
ORDER = """
    +012 -013 -021 +023 +031 -032 -102 +103 +120 -123 -130 +132
    +201 -203 -210 +213 +230 -231 -301 +302 +310 -312 -320 +321
"""


def plane(*points):
    values = coordinates(patterns_of([float(coordinate) for point in points for coordinate in point]), planes.REACH)
    return planes.plane(list(zip(values[::3], values[1::3], values[2::3])))


class ByHand(unittest.TestCase):
    def test_signs_and_steps(self):
        for *points, expected in BY_HAND:
            with self.subTest(points):
                self.assertEqual(plane(*points), expected)

    def test_a_ball_above_is_minus_and_below_is_plus(self):
        for height, sign in ((6, -1), (5, 0), (4, 1), (5 + 2**-50, -1), (5 - 2**-50, 1)):
            for x, y in ((2, 2), (0, 0), (-1000, 7)):
                self.assertEqual(plane(*LEVEL, (x, y, height))[0], sign)

    def test_order_and_signs_of_the_products(self):
        points = [(10 + index, 20 + index, 30 + index) for index in range(4)]
        expected = []
        for sign, i, j, k in ORDER.split():
            expected.append((int(f"{sign}1{i}"), int(f"2{j}"), int(f"3{k}")))
        self.assertEqual(list(products(points)), expected)

    def test_x_meets_y_first(self):
        # (1 + u)(1 + u) is 1 + 2u and u², u being 2^-52; a third 1 + u makes 1 + 3u and 2u², u² and u³
        one = units(pattern_of(1.0))
        expected = [one + 3 * (one >> 52), 2 * (one >> 104), (one >> 104) + (one >> 156), 0]
        self.assertEqual(opened(*[one + (one >> 52)] * 3), expected)

    def test_refusals(self):
        for refused in (2.0**300 + 2.0**248, 2.0**-300 - 2.0**-353, 2.0**400, 5e-324, float("inf"), float("nan")):
            for place in range(12):
                numbers = [1.0] * place + [refused] * (12 - place)
                with self.assertRaises(Refused) as refusal:
                    answer_plane(words_of(numbers))
                self.assertEqual((refusal.exception.number, refusal.exception.place), (3, place))

    def test_lines(self):
        zero, one, end, least = words_of([0.0, 1.0, 2.0**300, -(2.0**-300)])
        self.assertEqual(answer_plane([zero] * 3 + [end, zero, zero, zero, least, zero, zero, zero, end]), b"plane 1 0")
        for words in ([], [one] * 11, [one] * 13, [one] * 24, [one] * 11 + [b"x"], [one] * 11 + [b""]):
            with self.assertRaises(Unclear):
                answer_plane(words)


class OtherOpinions(unittest.TestCase):
    def points(self, seeded):
        """Four points, often near one plane."""
        p, q, r = [[seeded.choice((seeded.random(), seeded.randint(-9, 9) / 8)) for _ in range(3)] for _ in range(3)]
        k, m = (seeded.choice((seeded.random(), seeded.randint(-3, 3))) for _ in range(2))
        near = [a + k * (b - a) + m * (c - a) for a, b, c in zip(p, q, r)]
        return [p, q, r, near if seeded.randrange(4) else [seeded.random() for _ in range(3)]]

    def test_signs_are_those_of_fractions(self):
        seeded = random.Random(754)
        for _ in range(1000):
            points = self.points(seeded)
            p, *others = [[Fraction(coordinate) for coordinate in point] for point in points]
            (a, b, c), (d, e, f), (g, h, i) = [[to - start for start, to in zip(p, other)] for other in others]
            exact = -(a * (e * i - f * h) - b * (d * i - f * g) + c * (d * h - e * g))
            self.assertEqual(plane(*points)[0], (exact > 0) - (exact < 0))

    def test_swapping_two_points_turns_the_sign_round(self):
        seeded = random.Random(754)
        for _ in range(30):
            points = self.points(seeded)
            sign = plane(*points)[0]
            for order in permutations(range(4)):
                even = sum(order[i] > order[j] for j in range(4) for i in range(j)) % 2 == 0
                self.assertEqual(plane(*(points[index] for index in order))[0], sign if even else -sign)

    def test_products_are_exact_at_both_ends_of_the_range(self):
        seeded = random.Random(754)
        for _ in range(1000):
            exponents = [seeded.choice((-300, 299, seeded.randint(-300, 299))) for _ in range(3)]
            x, y, height = [(1 + seeded.random()) * 2.0**exponent for exponent in exponents]
            summands = opened(*(units(pattern_of(factor)) for factor in (x, y, height)))
            self.assertEqual(Fraction(sum(summands), 2**1074), Fraction(x) * Fraction(y) * Fraction(height))
