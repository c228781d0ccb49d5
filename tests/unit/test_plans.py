"""Plans, against answers seen on paper, and against their zones asked one by one."""

import random
import unittest
from itertools import permutations

import test_zones
from floats import words_of
from plans import answer_plan
from test_zones import BOW, SQUARE, STAR
from words import Refused, Unclear
from zones import answer_zone

NAN, INFINITY = float("nan"), float("inf")
HAIR = 2.0**-52


def rectangle(left, low, right, high):
    return [left, low, right, low, right, high, left, high]


AWAY = rectangle(20, 20, 24, 24)
NESTED = [rectangle(0, 0, 9, 9), rectangle(1, 1, 8, 8), rectangle(2, 2, 7, 7)]
CELLS = [rectangle(x, y, x + 1, y + 1) for y in range(4) for x in range(4)]  # cell x, y is zone 4 y + x
# of the zones 3 and 7, either side of x = 1
BESIDE = [AWAY] * 3 + [rectangle(0, 0, 1, 4)] + [AWAY] * 3 + [rectangle(1, 0, 3, 4)] + [AWAY]
SLANTING = [AWAY] * 3 + [[0, 0, 6, 3, 0, 9]] + [AWAY] * 3 + [[6, 3, 0, 0, 9, 0]]

# the point, the zones, and the answer
BY_HAND = [
    ((1, 1), [], b"none"),
    ((2, 2), [SQUARE], b"alone 0"),
    ((4, 1), [SQUARE], b"border 0"),
    ((5, 5), [SQUARE], b"none"),
    # the first, one between and the last of 16
    ((0.5, 0.5), CELLS, b"alone 0"),
    ((2.5, 1.5), CELLS, b"alone 6"),
    ((3.5, 3.5), CELLS, b"alone 15"),
    ((4.5, 3.5), CELLS, b"none"),
    # a line of two cells, and a corner of four
    ((3, 2.5), CELLS, b"border 10"),
    ((2.5, 3), CELLS, b"border 10"),
    ((3, 3), CELLS, b"border 10"),
    ((4, 4), CELLS, b"border 15"),
    ((-0.0, 4), CELLS, b"border 12"),
    # on the line of zones 3 and 7, a last place on either side of it, and beyond its end
    ((1, 2), BESIDE, b"border 3"),
    ((1, 4), BESIDE, b"border 3"),
    ((1 - HAIR / 2, 2), BESIDE, b"alone 3"),
    ((1 + HAIR, 2), BESIDE, b"alone 7"),
    ((1, 4 + 4 * HAIR), BESIDE, b"none"),
    ((3, 2), BESIDE, b"border 7"),
    ((4, 2), SLANTING, b"border 3"),
    ((4, 2 + 2 * HAIR), SLANTING, b"alone 3"),
    ((4, 2 - HAIR), SLANTING, b"alone 7"),
    ((7, 1), SLANTING, b"alone 7"),
    ((7, 3.5), SLANTING, b"none"),
    # one in the other: of three that have it the two lowest
    ((0.5, 5), NESTED, b"alone 0"),
    ((1.5, 5), NESTED, b"shared 0 1"),
    ((5, 5), NESTED, b"shared 0 1"),
    ((0.5, 5), NESTED[::-1], b"alone 2"),
    ((1.5, 5), NESTED[::-1], b"shared 1 2"),
    ((5, 5), NESTED[::-1], b"shared 0 1"),
    ((5, 5), [AWAY, NESTED[0], AWAY, AWAY] + NESTED, b"shared 1 4"),
    # on the border of one and inside others, whichever comes first
    ((1, 5), NESTED, b"border 1"),
    ((7, 5), NESTED, b"border 2"),
    ((7, 5), NESTED[::-1], b"border 0"),
    ((2, 2), [SQUARE, SQUARE, [1, 1, 3, 3, 1, 1]], b"border 2"),
    ((2, 2), [SQUARE, SQUARE, [2, 2] * 3], b"border 2"),
    ((2, 1), [SQUARE, [1, 1, 3, 3, 1, 1], [2, 2] * 3], b"alone 0"),
    # the same zone twice, as it is, backwards and begun elsewhere
    ((2, 2), [SQUARE, SQUARE], b"shared 0 1"),
    ((4, 1), [SQUARE, SQUARE], b"border 0"),
    ((5, 5), [SQUARE, SQUARE], b"none"),
    ((1, 2), [SQUARE, AWAY, rectangle(4, 4, 0, 0), rectangle(0, 4, 4, 0)], b"shared 0 2"),
    ((2, 2), [SQUARE] * 16, b"shared 0 1"),
    ((2, 2), [AWAY] * 14 + [SQUARE] * 2, b"shared 14 15"),
    # zones that cross themselves
    ((2, 1), [BOW, SQUARE], b"alone 1"),
    ((1, 2), [BOW, SQUARE], b"shared 0 1"),
    ((5, 4), [SQUARE, STAR], b"alone 1"),
    ((2, 2), [SQUARE * 16] * 16, b"shared 0 1"),
    ((2, 2), [AWAY * 16] * 15 + [SQUARE * 16], b"alone 15"),
]

TRIANGLE = [0, 0, 4, 0, 4, 4]

# the counts, the point, all corners, and what is refused: number, place and zone
REFUSED = [
    # more than 16 zones, whatever they are
    ([4] * 17, (1, 1), SQUARE * 17, (1, 0, 0)),
    ([0] * 17, (1, 1), [], (1, 0, 0)),
    ([0] * 20, (NAN, 1), SQUARE, (1, 0, 0)),
    ([2**32 - 1] * 20, (1, 1), [], (1, 0, 0)),
    # one corner more counted than listed, one fewer, and one number more or fewer
    ([4, 5], (1, 1), SQUARE * 2, (5, 0, 0)),
    ([4, 3], (1, 1), SQUARE * 2, (5, 0, 0)),
    ([4, 4], (1, 1), SQUARE * 2 + [0], (5, 0, 0)),
    ([4, 4], (1, 1), SQUARE * 2 + [0, 0], (5, 0, 0)),
    ([4, 4], (1, 1), (SQUARE * 2)[:-1], (5, 0, 0)),
    ([], (1, 1), [0], (5, 0, 0)),
    ([], (1, 1), SQUARE, (5, 0, 0)),
    ([4], (1, 1), [], (5, 0, 0)),
    ([0], (1, 1), SQUARE, (5, 0, 0)),
    ([4] * 16, (1, 1), SQUARE * 17, (5, 0, 0)),
    # as many as listed only without the bits above 2^31 or 2^32
    ([2**31 + 4], (1, 1), SQUARE, (5, 0, 0)),
    ([2**31 + 4, 2**31], (1, 1), SQUARE, (5, 0, 0)),
    ([2**32 - 1, 5], (1, 1), SQUARE, (5, 0, 0)),
    ([2**28] * 16, (1, 1), [], (5, 0, 0)),
    ([4, 5, 1], (NAN, NAN), SQUARE * 2, (5, 0, 0)),
    # the point, before any zone
    ([], (INFINITY, 1), [], (3, 0, 0)),
    ([], (1, 2.0**-401), [], (3, 1, 0)),
    ([4, 4], (1, NAN), SQUARE * 2, (3, 1, 0)),
    ([2, 4], (2.0**401, NAN), TRIANGLE * 2, (3, 0, 0)),
    ([3, 3], (1, NAN), [NAN] * 12, (3, 1, 0)),
    # the third zone of 2 corners, of none, of 65; as many in all as in four good ones
    ([4, 4, 2, 4], (1, 1), SQUARE * 2 + [0, 0, 4, 0] + SQUARE, (4, 0, 2)),
    ([4, 4, 0, 4], (1, 1), SQUARE * 3, (4, 0, 2)),
    ([4, 4, 65], (1, 1), SQUARE * 2 + [0, 0] * 65, (1, 0, 2)),
    ([4, 4, 65, 2], (1, 1), SQUARE * 2 + [0, NAN] * 67, (1, 0, 2)),
    ([5, 5, 1, 5], (1, 1), SQUARE * 4, (4, 0, 2)),
    ([0] * 16, (1, 1), [], (4, 0, 0)),
    ([4] * 15 + [1], (1, 1), SQUARE * 15 + [1, 1], (4, 0, 15)),
    # a coordinate, with its place in its own zone
    ([4, 4, 3], (1, 1), SQUARE * 2 + TRIANGLE[:-1] + [NAN], (3, 7, 2)),
    ([4, 4, 3], (1, 1), SQUARE * 2 + [INFINITY] + TRIANGLE[1:], (3, 2, 2)),
    ([4, 4, 3], (1, 1), SQUARE + [5e-324] * 8 + TRIANGLE, (3, 2, 1)),
    ([3, 4, 3], (1, 1), TRIANGLE[:-1] + [NAN] + SQUARE + TRIANGLE[:-1] + [NAN], (3, 7, 0)),
    ([64] * 16, (2, 2), (SQUARE * 256)[:-1] + [2.0**-401], (3, 129, 15)),
    # the first refused zone, whatever its number
    ([3, 2], (1, 1), TRIANGLE[:-1] + [NAN] + [0, 0, 4, 0], (3, 7, 0)),
    ([2, 3], (1, 1), [0, 0, 4, 0] + TRIANGLE[:-1] + [NAN], (4, 0, 0)),
    ([3, 65, 2], (1, 1), TRIANGLE + [0, 0] * 67, (1, 0, 1)),
    # although the point is on the border of an earlier zone, or inside two
    ([4, 4, 4, 4, 4, 2], (4, 1), SQUARE * 5 + [4, 1, 4, 2], (4, 0, 5)),
    ([4, 4, 3], (2, 2), SQUARE * 2 + TRIANGLE[:-1] + [-INFINITY], (3, 7, 2)),
]


def words(counts, point, corners):
    return [b"%d" % number for number in [len(counts), *counts]] + words_of([*point, *corners])


def plan(point, zones):
    return answer_plan(words([len(own) // 2 for own in zones], point, sum(zones, []))).removeprefix(b"plan ")


class ByHand(unittest.TestCase):
    def check_refused(self, asked, refused):
        with self.assertRaises(Refused) as refusal:
            answer_plan(asked)
        self.assertEqual(refusal.exception.args, refused)

    def test_answers(self):
        for point, zones, answer in BY_HAND:
            with self.subTest(f"{point} {zones[:4]} {answer}"):
                self.assertEqual(plan(point, zones), answer)

    def test_refusals(self):
        for counts, point, corners, refused in REFUSED:
            with self.subTest(f"{counts} {point} {refused}"):
                self.check_refused(words(counts, point, corners), refused)

    def test_a_zone_is_refused_as_if_it_were_alone(self):
        for numbers, number, place in test_zones.REFUSED:
            point, corners = numbers[:2], numbers[2:]
            if number == 5 or point != [1, 1]:
                continue
            for index in (0, 1, 15):
                before, after = SQUARE * index, SQUARE * (15 - index)
                counts = [4] * index + [len(corners) // 2] + [4] * (15 - index)
                self.check_refused(words(counts, point, before + corners + after), (number, place, index))

    def test_lines(self):
        one, bad = words_of([1.0, NAN])
        self.assertEqual(answer_plan([b"0", one, one]), b"plan none")
        self.assertEqual(answer_plan([b"1", b"3"] + [one] * 8), b"plan border 0")
        for unclear in (
            [], [b"0"], [one], [b"0", one], [b"1", one, one], [b"1", b"3", one], [b"2", b"3"] + [one] * 8,
            [b"1", b"3", b"3"] + [one] * 8, [b"00", one, one], [b"01", b"3"] + [one] * 8, [b"1", b"03"] + [one] * 8,
            [b"1", b"4294967296", one, one], [b"1", b"-3"] + [one] * 8, [b"1", b"3"] + [bad] * 8 + [b""],
            [b"17"] + [b"3"] * 17 + [bad, bad, b"x"],
        ):
            with self.subTest(unclear), self.assertRaises(Unclear):
                answer_plan(unclear)

    def test_what_is_held(self):
        one = words_of([1.0])
        self.check_refused([b"20"] + [b"0"] * 20 + one * 2, (1, 0, 0))
        self.check_refused([b"1", b"1106"] + one * (2 + 2212), (1, 0, 0))
        self.check_refused([b"0"] + one * (2 + 2212), (5, 0, 0))
        for counts, doubles in (([b"0"] * 21, 0), ([b"1106"], 2213), ([b"1107"], 2214)):
            with self.assertRaises(Unclear):
                answer_plan([b"%d" % len(counts)] + counts + one * (2 + doubles))


def one_by_one(point, zones):
    """The answer by the request's words, from the places that the word zone tells."""
    places = [answer_zone(words_of([*point, *own])).split()[1] for own in zones]
    if b"border" in places:
        return b"border %d" % places.index(b"border")
    having = [b"%d" % number for number, place in enumerate(places) if place == b"inside"]
    return b" ".join([b"none" if not having else b"alone" if len(having) == 1 else b"shared"] + having[:2])


class OtherOpinions(unittest.TestCase):
    def test_zones_asked_one_by_one(self):
        seeded = random.Random(754)
        found = set()
        for _ in range(1000):
            size = seeded.choice((1, 2, 6))
            whole = range(-size, size + 1)
            zones = [seeded.choices(whole, k=2 * seeded.randint(3, 6)) for _ in range(seeded.randint(0, 8))]
            point = seeded.choices([-0.5, 0.5, *whole], k=2)
            answer = plan(point, zones)
            self.assertEqual(answer, one_by_one(point, zones), (point, zones))
            found.add(answer.split()[0])
        self.assertEqual(found, {b"border", b"none", b"alone", b"shared"})

    def test_the_order_of_zones_leaves_the_word(self):
        for point, zones, answer in BY_HAND:
            word, *named = answer.split()
            for order in permutations(range(min(len(zones), 3))):
                order = [*range(3, len(zones)), *order]
                other, *numbers = plan(point, [zones[index] for index in order]).split()
                self.assertEqual(other, word)
                if word == b"alone":
                    self.assertEqual([b"%d" % order[int(number)] for number in numbers], named)

    def test_turned_and_reversed_zones(self):
        for point, zones, answer in BY_HAND:
            pairs = [list(zip(own[::2], own[1::2])) for own in zones]
            for way in (1, -1):
                turned = [(own[1:] + own[:1])[::way] for own in pairs]
                self.assertEqual(plan(point, [[number for corner in own for number in corner] for own in turned]), answer)
