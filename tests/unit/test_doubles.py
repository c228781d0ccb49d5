"""Taking apart and coordinates, against hand-computed values and Python's reading of the same pattern."""

import math
import random
import unittest
from fractions import Fraction

import doubles
from doubles import apart, coordinates, is_coordinate, units
from floats import any_finite, float_of, pattern_of, patterns_of
from words import Refused

# the number as C and Python spell it in hexadecimal, then sign bit, significand and exponent
BY_HAND = [
    ("0x0p0", 0, 0, 0),
    ("-0x0p0", 1, 0, 0),
    ("0x1p-1074", 0, 1, 0),  # least subnormal
    ("-0x1p-1074", 1, 1, 0),
    ("0x0.fffffffffffffp-1022", 0, 2**52 - 1, 0),  # greatest subnormal
    ("0x1p-1022", 0, 2**52, 0),  # least normal: 2^52 * 2^-1074
    ("0x1.0000000000001p-1022", 0, 2**52 + 1, 0),
    ("0x1p-1021", 0, 2**52, 1),
    ("0x1p0", 0, 2**52, 1022),  # 1 = 2^52 * 2^(1022 - 1074)
    ("-0x1p0", 1, 2**52, 1022),
    ("0x1.fffffffffffffp-1", 0, 2**53 - 1, 1021),
    ("-0x1.8p1", 1, 3 * 2**51, 1023),  # -3 = -(3 * 2^51) * 2^(1023 - 1074)
    ("0x1p400", 0, 2**52, 1422),
    ("0x1p-400", 0, 2**52, 622),
    ("0x1.fffffffffffffp1023", 0, 2**53 - 1, 2045),  # largest finite
    ("-0x1.fffffffffffffp1023", 1, 2**53 - 1, 2045),
]

REFUSED = [
    0x7FF0000000000000,  # infinities
    0xFFF0000000000000,
    0x7FF8000000000000,  # NaNs: quiet, signalling, least and greatest payload
    0xFFF8000000000000,
    0x7FF4000000000000,
    0x7FF0000000000001,
    0xFFF0000000000001,
    0x7FFFFFFFFFFFFFFF,
    0xFFFFFFFFFFFFFFFF,
]


class Apart(unittest.TestCase):
    def test_values_by_hand(self):
        for text, *parts in BY_HAND:
            with self.subTest(text):
                self.assertEqual(apart(pattern_of(float.fromhex(text))), tuple(parts))

    def test_infinities_and_nans_are_refused(self):
        for pattern in REFUSED:
            with self.subTest(hex(pattern)):
                with self.assertRaises(Refused) as refusal:
                    apart(pattern)
                self.assertEqual((refusal.exception.number, refusal.exception.place), (2, 0))

    def test_python_reads_the_same_number(self):
        seeded = random.Random(754)
        for field in range(2047):
            self.check(seeded.getrandbits(1) << 63 | field << 52 | seeded.getrandbits(52))

    def check(self, pattern):
        number = float_of(pattern)
        sign, significand, exponent = apart(pattern)
        numerator, denominator = abs(number).as_integer_ratio()
        # equal magnitudes, compared as whole numbers of 2^-1074
        self.assertEqual(numerator << 1074, (significand << exponent) * denominator)
        self.assertEqual(math.copysign(1, number), 1 - 2 * sign)
        # of all ways to write the magnitude, the one that the fields have
        self.assertLess(significand, 2**53)
        self.assertTrue(exponent == 0 or significand >= 2**52)


class Units(unittest.TestCase):
    def test_value_is_pythons_and_leads_back_to_the_pattern(self):
        seeded = random.Random(754)
        for number in [5e-324, 2.0**-1022, 1.0, 1.7976931348623157e308] + [any_finite(seeded) for _ in range(5000)]:
            for signed in (number, -number):
                value = units(pattern_of(signed))
                self.assertEqual(Fraction(value, 2**1074), Fraction(signed))
                self.assertEqual(doubles.pattern_of(value), pattern_of(signed))

    def test_zeros(self):
        self.assertEqual([units(pattern) for pattern in patterns_of([0.0, -0.0])], [0, 0])
        self.assertEqual(doubles.pattern_of(0), pattern_of(0.0))


class Coordinates(unittest.TestCase):
    def test_ends_of_the_range(self):
        self.check_ends(2.0**-400, 2.0**400, is_coordinate)
        self.check_ends(2.0**-300, 2.0**300, lambda pattern: is_coordinate(pattern, 300))

    def check_ends(self, least, largest, is_accepted):
        low, high = pattern_of(least), pattern_of(largest)
        for pattern, accepted in (
            (low, True), (low - 1, False), (low + 1, True), (high, True), (high + 1, False), (high - 1, True),
            (0, True), (1, False), (0x7FF0000000000000, False), (0x7FF8000000000000, False),
        ):
            for signed in (pattern, 1 << 63 | pattern):
                with self.subTest(hex(signed)):
                    self.assertEqual(is_accepted(signed), accepted)

    def test_the_first_refused_place(self):
        with self.assertRaises(Refused) as refusal:
            coordinates(patterns_of([1.0, -0.0, 2.0**401, math.inf]))
        self.assertEqual((refusal.exception.number, refusal.exception.place), (3, 2))
