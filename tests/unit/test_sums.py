"""Sums, against the cases of 01 that are checked by hand, and against Python's fractions."""

import math
import random
import unittest
from fractions import Fraction

import heaps
from floats import any_finite, patterns_of, words_of
from promises import Broken
from sums import accepted_values, answer_ceiling, answer_plain, answer_run, ceiling, plain, run
from words import LARGEST_COUNT, Refused, Unclear

C = 2.0**-2 + 2.0**-54
B = 1 + 2.0**-52
M = float.fromhex("0x1.fffffffffffffp1023")
LEAST = 2.0**-1074

# the list, its sign, its steps and its ceiling
BY_HAND = [
    ([], 0, 0, 0),
    ([0.0], 0, 0, 0),
    ([-0.0, 0.0, -0.0], 0, 0, 0),
    ([1.0], 1, 0, 1),
    ([-0.0, -1.0], -1, 0, 1),
    ([1.0, -1.0], 0, 1, 2),
    ([1.0, 2.0**-60, -1.0], 1, 1, 5),
    ([1.0, -C, -C, -C, -C], -1, 3, 10),
    ([M, M, -M, -M], 0, 2, 8),
    ([M] + [-M] * 1023, -1, 1, 2048),  # 1023 * M is infinite, which decides nothing
    ([M, -LEAST], 1, 0, 50),  # 2098 bits and 1 bit
    ([2.0, -0.0, -1.0], 1, 0, 2),  # a zero is no negative entry
    ([2.0, -1.0, -1.0], 0, 2, 3),  # 2 is not greater than 2 times 1
    ([3 + 2.0**-50, -B, -B, -B], 1, 3, 8),  # exactly greater than 3 * B, which rounds to it
    ([2.0**42, 1.0], 1, 0, 2),  # 43 bits and 1 bit
    ([2.0**43, 1.0], 1, 0, 3),  # 44 bits and 1 bit
    ([12.0, -0.0, -4.0], 1, 0, 2),  # in units of 4
]

# the list, the budget, and the list as it then stands
LISTS_AFTER = [
    ([1.0, -C, -C, -C, -C], 0, [1.0, -C, -C, -C, -C]),
    ([1.0, -C, -C, -C, -C], 1, [0.75, -(2.0**-54), -C, -C, -C]),
    ([1.0, -C, -C, -C, -C], 2, [0.5 - 2.0**-54, -(2.0**-54), 0.0, -C, -C]),
    ([1.0, -C, -C, -C, -C], 3, [0.25 - 2.0**-53, -(2.0**-54), 0.0, 0.0, -C]),
    ([1.0, -C, -C, -C, -C], LARGEST_COUNT, [0.25 - 2.0**-53, -(2.0**-54), 0.0, 0.0, -C]),
    ([-0.0, 1.0, 0.0, -1.0, -0.0], 1, [-0.0, 0.0, 0.0, 0.0, -0.0]),
    ([-1.0, -1.0, 1.0, 1.0], 1, [0.0, -1.0, 0.0, 1.0]),
    ([1.0, 1.0, -1.5, -1.5], 1, [0.0, 1.0, -0.5, -1.5]),
]


class ByHand(unittest.TestCase):
    def test_signs_steps_and_ceilings(self):
        for numbers, sign, steps, limit in BY_HAND:
            with self.subTest(numbers[:6]):
                patterns = patterns_of(numbers)
                self.assertEqual(ceiling(accepted_values(patterns)), limit)
                self.assertEqual(plain(accepted_values(patterns)), sign)
                self.assertEqual(run(list(patterns), limit), (sign, steps))
                self.assertEqual(run(list(patterns), LARGEST_COUNT), (sign, steps))
                self.assertEqual(run(list(patterns), steps), (sign, steps))
                for budget in range(steps):
                    self.assertEqual(run(list(patterns), budget), (None, budget))

    def test_lists_after(self):
        for numbers, budget, after in LISTS_AFTER:
            with self.subTest(f"{numbers} {budget}"):
                patterns = patterns_of(numbers)
                run(patterns, budget)
                self.assertEqual(patterns, patterns_of(after))

    def test_refusals(self):
        finite, infinite, nan = 1.0, math.inf, math.nan
        for numbers, number, place in (
            ([finite] * 1025, 1, 0),
            ([infinite] + [finite] * 1024, 1, 0),
            ([infinite], 2, 0),
            ([finite] * 1023 + [-infinite], 2, 1023),
            ([finite, nan, finite, infinite], 2, 1),
        ):
            for answer, words in ((answer_run, [b"0"]), (answer_ceiling, []), (answer_plain, [])):
                with self.subTest(answer.__name__), self.assertRaises(Refused) as refusal:
                    answer(words + words_of(numbers))
                self.assertEqual((refusal.exception.number, refusal.exception.place), (number, place))
        self.assertEqual(answer_ceiling(words_of([finite] * 1024)), b"ceiling 1024")

    def test_lines(self):
        one, minus_one, zero = words_of([1.0, -1.0, 0.0])
        self.assertEqual(answer_run([b"0"]), b"run 0 0")
        self.assertEqual(answer_run([b"0", one, minus_one]), b" ".join([b"run undecided 0", one, minus_one]))
        self.assertEqual(answer_run([b"4294967295", one, minus_one]), b" ".join([b"run 0 1", zero, zero]))
        self.assertEqual(answer_plain([minus_one]), b"plain -1")
        for words in ([], [b""], [one], [b"1", b"1"], [b"4294967296"], [b"1"] + [one] * 1030 + [b"x"]):
            with self.assertRaises(Unclear):
                answer_run(words)


class OtherOpinions(unittest.TestCase):
    def test_random_lists(self):
        seeded = random.Random(754)
        for _ in range(3000):
            numbers = [any_finite(seeded) for _ in range(seeded.randrange(8))]
            numbers += [-number for number in numbers[: seeded.randrange(9)]]
            seeded.shuffle(numbers)
            exact = sum(map(Fraction, numbers))
            sign, steps = run(patterns_of(numbers), LARGEST_COUNT)
            self.assertEqual(sign, (exact > 0) - (exact < 0))
            self.assertEqual(plain(accepted_values(patterns_of(numbers))), sign)
            self.assertEqual(ceiling(accepted_values(patterns_of(numbers))), self.ceiling_by_fractions(numbers))

    def ceiling_by_fractions(self, numbers):
        ratios = [abs(number).as_integer_ratio() for number in numbers if number]
        # each number is an odd one times a power of two, which the ratio has above or below
        power = min(((above & -above).bit_length() - below.bit_length() for above, below in ratios), default=0)
        lengths = [(Fraction(*ratio) / Fraction(2) ** power).numerator.bit_length() for ratio in ratios]
        return sum(math.ceil(Fraction(length, 43)) for length in lengths)

    def test_two_budgets_are_one(self):
        seeded = random.Random(754)
        for _ in range(300):
            numbers = [seeded.choice((-1, 1)) * seeded.random() for _ in range(20)]
            numbers.append(-math.fsum(numbers))
            first, second = seeded.randrange(12), seeded.randrange(12)
            once, twice = patterns_of(numbers), patterns_of(numbers)
            sign, steps = run(once, first + second)
            _, first_steps = run(twice, first)
            self.assertEqual(run(twice, second), (sign, steps - first_steps))
            self.assertEqual(once, twice)

    def test_a_broken_promise_is_noticed(self):
        published = heaps.sign_and_iterations
        heaps.sign_and_iterations = lambda patterns: (0, 2)
        try:
            with self.assertRaises(Broken):
                run(patterns_of([1.0, -1.0]), LARGEST_COUNT)
        finally:
            heaps.sign_and_iterations = published


class Heaps(unittest.TestCase):
    def test_example_of_004(self):
        # its Table 2: the revised method needs one iteration
        numbers = [2 + 2.0**-50 + 2.0**-51, -1 - 2.0**-51 - 2.0**-52, -0.5 - 2.0**-52, -0.5 - 2.0**-52]
        self.assertEqual(heaps.sign_and_iterations(patterns_of(numbers)), (1, 1))

    def test_values_by_hand(self):
        for numbers, sign, steps, _ in BY_HAND:
            with self.subTest(numbers[:6]):
                self.assertEqual(heaps.sign_and_iterations(patterns_of(numbers)), (sign, steps))
