"""Rounding in integers, against hand-computed values and against Python's float arithmetic."""

import math
import operator
import random
import unittest

import doubles
from doubles import units
from floats import any_finite, float_of, pattern_of
from rounding import INFINITE, is_finite_double, nearest, product

LARGEST = (2**53 - 1) * 2**2045

# a number of units, and the double nearest to it
BY_HAND = [
    (0, 0),
    (1, 1),
    (2**53 - 1, 2**53 - 1),
    (2**53 + 1, 2**53),  # ties go to the even significand
    (2**53 + 2, 2**53 + 2),
    (2**53 + 3, 2**53 + 4),
    (2**54 + 3, 2**54 + 4),
    (2**54 + 2, 2**54),
    (2**54 + 6, 2**54 + 8),
    (2**54 - 1, 2**54),  # rounds up to the next power of two
    (LARGEST, LARGEST),
    (LARGEST + 2**2044 - 1, LARGEST),
    (LARGEST + 2**2044, INFINITE),  # the tie above the largest double
    (2**2098, INFINITE),
    (2**5000, INFINITE),
]

# 2^-1074 times 1/2, 3/2, 5/2 and a little more than 1/2: products that are subnormal
SUBNORMAL = [(2.0**-1, 0), (1.5, 2), (2.5, 2), (0.5 + 2.0**-53, 1)]


class Rounding(unittest.TestCase):
    def test_values_by_hand(self):
        for number, expected in BY_HAND:
            with self.subTest(number.bit_length()):
                self.assertEqual(nearest(number), expected)
                self.assertEqual(nearest(-number), -expected)

    def test_subnormal_products_by_hand(self):
        for factor, expected in SUBNORMAL:
            self.assertEqual(product(1, units(pattern_of(factor))), expected)
            self.assertEqual(product(-1, units(pattern_of(factor))), -expected)

    def test_which_numbers_are_doubles(self):
        for number in (0, 1, 2**53, LARGEST, -LARGEST):
            self.assertTrue(is_finite_double(number))
        for number in (2**53 + 1, LARGEST + 1, INFINITE, -INFINITE):
            self.assertFalse(is_finite_double(number))

    def test_sums_are_pythons(self):
        self.check_pairs(operator.add, lambda first, second: nearest(first + second))
        self.check_pairs(operator.sub, lambda first, second: nearest(first - second))

    def test_products_are_pythons(self):
        self.check_pairs(operator.mul, product)

    def test_small_multiples_are_pythons(self):
        seeded = random.Random(754)
        for _ in range(10_000):
            count, number = seeded.randint(1, 1024), abs(any_finite(seeded))
            self.assertEqual(self.float_of(nearest(count * units(pattern_of(number)))), count * number)

    def check_pairs(self, by_python, in_integers):
        seeded = random.Random(754)
        for _ in range(10_000):
            first, second = any_finite(seeded), any_finite(seeded)
            value = in_integers(units(pattern_of(first)), units(pattern_of(second)))
            with self.subTest(f"{first.hex()} {second.hex()}"):
                self.assertEqual(self.float_of(value), by_python(first, second))

    def float_of(self, value):
        """The float of a rounded value, infinities too; +0 for 0, which Python holds equal to -0."""
        if abs(value) == INFINITE:
            return math.inf if value > 0 else -math.inf
        return float_of(doubles.pattern_of(value))
