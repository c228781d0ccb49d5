"""Reasons for a point's place, against edges counted on paper, and against the rule's own signs in Python's fractions."""

import random
import unittest
from fractions import Fraction

import test_zones
from floats import words_of
from reasons import answer_why
from test_zones import BOW, DIAMOND, SQUARE, STAR
from words import Refused, Unclear
from zones import answer_zone

CLOCKWISE = [0, 0, 0, 4, 4, 4, 4, 0]
LEAST, MOST = 2.0**-400, 2.0**400
HAIR = 2.0**-52

# the point, the corners, the entries needed, and the reason
BY_HAND = [
    ((2, 2), SQUARE, 1, b"inside 1 1 up"),
    ((5, 5), SQUARE, 0, b"outside 0"),
    ((-1, 5), SQUARE, 0, b"outside 0"),
    ((5, 2), SQUARE, 0, b"outside 0"),
    ((-1, 2), SQUARE, 2, b"outside 0 1 up 3 down"),
    ((2, 2), CLOCKWISE, 1, b"inside -1 2 down"),
    ((-1, 2), CLOCKWISE, 2, b"outside 0 0 up 2 down"),
    # the first edge that has the point, whether or not a later one has it as an end
    ((4, 1), SQUARE, 0, b"border 1 between"),
    ((0, 1), SQUARE, 0, b"border 3 between"),
    ((4, 4), SQUARE, 0, b"border 1 corner"),
    ((0, 0), SQUARE, 0, b"border 0 corner"),
    ((4, 0), SQUARE, 0, b"border 0 corner"),
    ((0, 4), SQUARE, 0, b"border 2 corner"),
    ((2, 2), BOW, 0, b"border 0 between"),
    ((2, 0), [0, 0, 4, 0, 4, 4, 2, 0, 0, 4], 0, b"border 0 between"),
    ((2, 0), [4, 4, 2, 0, 0, 4, 0, 0, 4, 0], 0, b"border 0 corner"),
    # a corner that stands there twice is an edge of its own
    ((4, 4), [0, 0, 4, 0, 9, 9, 4, 4, 4, 4, 0, 4], 0, b"border 2 corner"),
    ((4, 4), [4, 4, 4, 4, 0, 4, 0, 0], 0, b"border 0 corner"),
    ((1, 1), [1, 1] * 3, 0, b"border 0 corner"),
    ((3, 3), [0, 0, 1, 1, 4, 4], 0, b"border 1 between"),
    ((1, 2), [1, 1] * 3, 0, b"outside 0"),
    # in line with level edges, the lower and the upper one: of the others the lower end counts, the upper does not
    ((-1, 0), SQUARE, 2, b"outside 0 1 up 3 down"),
    ((5, 0), SQUARE, 0, b"outside 0"),
    ((-1, 4), SQUARE, 0, b"outside 0"),
    # level with a corner where the border goes on, with one where it turns up, and with one where it turns down
    ((2, 2), DIAMOND, 1, b"inside 1 1 up"),
    ((-1, 2), DIAMOND, 2, b"outside 0 1 up 2 down"),
    ((5, 2), DIAMOND, 0, b"outside 0"),
    ((1, 0), DIAMOND, 2, b"outside 0 0 up 3 down"),
    ((3, 0), DIAMOND, 0, b"outside 0"),
    ((1, 4), DIAMOND, 0, b"outside 0"),
    # crossing itself
    ((1, 2), BOW, 3, b"inside 1 0 up 1 down 2 up"),
    ((3, 2), BOW, 1, b"inside -1 1 down"),
    ((2, 1), BOW, 2, b"outside 0 1 down 2 up"),
    ((-1, 1), BOW, 4, b"outside 0 0 up 1 down 2 up 3 down"),
    ((5, 4), STAR, 2, b"inside -2 1 down 3 down"),
    ((5, 8), STAR, 1, b"inside -1 3 down"),
    ((1, 1), STAR, 4, b"outside 0 1 down 2 up 3 down 4 up"),
    # twice round, there and back, and a hole
    ((2, 2), SQUARE * 2, 2, b"inside 2 1 up 5 up"),
    ((4, 1), SQUARE * 2, 0, b"border 1 between"),
    ((-1, 2), SQUARE * 2, 4, b"outside 0 1 up 3 down 5 up 7 down"),
    ((2, 2), CLOCKWISE * 3, 3, b"inside -3 2 down 6 down 10 down"),
    ((2, 2), SQUARE + CLOCKWISE, 2, b"outside 0 1 up 6 down"),
    ((4, 5), [0, 0, 9, 0, 9, 9, 0, 9, 0, 0, 3, 3, 3, 6, 6, 6, 6, 3, 3, 3], 2, b"outside 0 1 up 7 down"),
    ((1, 5), [0, 0, 9, 0, 9, 9, 0, 9, 0, 0, 3, 3, 3, 6, 6, 6, 6, 3, 3, 3], 3, b"inside 1 1 up 5 up 7 down"),
    # a last place to the left and to the right of a slanting edge
    ((1, 1 + HAIR), [0, 0, 3, 3, -3, 3], 1, b"inside 1 0 up"),
    ((1 + HAIR, 1), [0, 0, 3, 3, -3, 3], 0, b"outside 0"),
    ((1, 1), [0, 0, 3, 3, -3, 3], 0, b"border 0 between"),
    # the ends of the range: at the height 2^-400 the first edge is at x = 2^-1200
    ((0, LEAST), [0, 0, LEAST, MOST, -MOST, MOST], 1, b"inside 1 0 up"),
    ((LEAST, LEAST), [0, 0, LEAST, MOST, -MOST, MOST], 0, b"outside 0"),
    ((LEAST, MOST), [0, 0, LEAST, MOST, -MOST, MOST], 0, b"border 0 corner"),
]

# by turns below and above the point (0, 0) and all to its right, so that all 64 edges count
ZIGZAG = [coordinate for index in range(64) for coordinate in (index + 1, index % 2 * 2 - 1)]
# by turns below and above it, each further out and across: 32 edges go up on its right, all but the last down on its left
WOUND = [coordinate for index in range(64) for coordinate in ((index % 2 * 2 - 1) * index, index % 2 * 2 - 1)]

# of the zone, whatever the room
REFUSED = test_zones.REFUSED + [
    ([1, 1] + [0, 0] * 1000, 1, 0),
    ([1, 1] + [0, 0] * 1000 + [0], 5, 0),
    ([float("nan"), float("nan")] + SQUARE, 3, 0),
    ([4, 1] + SQUARE[:-1] + [5e-324], 3, 9),
]


def why(room, point, corners):
    return answer_why([b"%d" % room] + words_of([*point, *corners])).removeprefix(b"why ")


def pairs(numbers):
    return list(zip(numbers[::2], numbers[1::2]))


class ByHand(unittest.TestCase):
    def check_refused(self, words, number, place):
        with self.assertRaises(Refused) as refusal:
            answer_why(words)
        self.assertEqual((refusal.exception.number, refusal.exception.place), (number, place))

    def test_reasons(self):
        for point, corners, needed, reason in BY_HAND:
            with self.subTest(f"{point} {corners[:12]}"):
                for room in (needed, needed + 1, 64, 100):
                    self.assertEqual(why(room, point, corners), reason)

    def test_too_little_room(self):
        for point, corners, needed, _ in BY_HAND:
            for room in range(needed):
                self.check_refused([b"%d" % room] + words_of([*point, *corners]), 9, 0)

    def test_either_zero(self):
        seeded = random.Random(754)
        for point, corners, needed, reason in BY_HAND * 5:
            signed = [number or seeded.choice((0.0, -0.0)) for number in [*point, *corners]]
            self.assertEqual(why(needed, signed[:2], signed[2:]), reason)
        self.assertEqual(why(0, (0.0, -0.0), [-0.0, 0.0, 4, 0, 4, 4]), b"border 0 corner")
        self.assertEqual(why(0, (4, -0.0), [0, 4, 0, 0, 4, 0.0, 4, 4]), b"border 1 corner")

    def test_most_entries(self):
        turns = b" ".join(b"%d up %d down" % (index, index + 1) for index in range(0, 64, 2))
        self.assertEqual(why(64, (0, 0), ZIGZAG), b"outside 0 " + turns)
        self.assertEqual(why(100, (0, 0), ZIGZAG), b"outside 0 " + turns)
        self.check_refused([b"63"] + words_of([0, 0, *ZIGZAG]), 9, 0)
        # one corner less: two stand above next to each other
        self.assertEqual(len(why(62, (0, 0), ZIGZAG[2:]).split()), 2 + 2 * 62)
        self.check_refused([b"61"] + words_of([0, 0, *ZIGZAG[2:]]), 9, 0)

    def test_most_often_round(self):
        ups = b" ".join(b"%d up" % index for index in range(0, 64, 2))
        self.assertEqual(why(33, (0, 0), WOUND), b"inside 31 " + ups + b" 63 down")
        self.check_refused([b"32"] + words_of([0, 0, *WOUND]), 9, 0)

    def test_refusals_of_the_zone_come_before_that_of_the_room(self):
        for numbers, number, place in REFUSED:
            for room in (b"0", b"64", b"100"):
                with self.subTest(numbers[:8]):
                    self.check_refused([room] + words_of(numbers), number, place)

    def test_lines(self):
        one, infinity = words_of([1.0, float("inf")])
        self.assertEqual(answer_why([b"0"] + [one] * 8), b"why border 0 corner")
        for room in (b"", b"00", b"-1", b"+1", b"x", b"101", b"4294967296", one):
            for count in (0, 1, 2, 8, 9, 132):
                with self.assertRaises(Unclear):
                    answer_why([room] + [one] * count)
        for words in ([], [one], [infinity], [one] * 8 + [b""], [one] * 8 + [b"x"], [infinity] * 140 + [b"x"]):
            with self.assertRaises(Unclear):
                answer_why([b"64"] + words)
        with self.assertRaises(Unclear):
            answer_why([])


def side(p, q, r):
    (px, py), (qx, qy), (rx, ry) = p, q, r
    exact = (qx - px) * (ry - py) - (qy - py) * (rx - px)
    return (exact > 0) - (exact < 0)


def by_sides(point, corners):
    """The reason by the rule's own words, from sides and heights."""
    point, *zone = [tuple(map(Fraction, pair)) for pair in [point, *corners]]
    entries = []
    for number, (start, end) in enumerate(zip(zone, zone[1:] + zone[:1])):
        sign, y, low, high = side(start, end, point), point[1], start[1], end[1]
        boxed = all(min(a, b) <= p <= max(a, b) for a, p, b in zip(start, point, end))
        if sign == 0 and boxed:
            return b"border %d %s" % (number, b"corner" if point in (start, end) else b"between")
        if low <= y < high and sign == 1:
            entries.append((number, b"up"))
        if high <= y < low and sign == -1:
            entries.append((number, b"down"))
    turns = [turn for _, turn in entries]
    total = turns.count(b"up") - turns.count(b"down")
    return b" ".join([b"inside" if total else b"outside", b"%d" % total] + [b"%d %s" % entry for entry in entries])


BACK = {b"up": b"down", b"down": b"up"}


def counted(point, zone):
    """Place and total of a point off the border, and the counted edges in any order, each by its ends and its turn."""
    place, total, *entries = why(64, point, [number for corner in zone for number in corner]).split()
    ends = list(zip(zone, zone[1:] + zone[:1]))
    return place, int(total), sorted((*ends[int(number)], turn) for number, turn in pairs(entries))


def on_grid(seeded):
    size = seeded.choice((1, 2, 4))
    count = seeded.choice((3, 4, 7, 20))
    return [(seeded.randint(-size, size), seeded.randint(-size, size)) for _ in range(1 + count)]


def past_the_point(seeded):
    """Edges from one side of the point to the other, a few last places beside it or through it; at times it is a corner."""
    x, y, dx, dy = (seeded.choice((seeded.random(), seeded.randint(1, 9) / 8)) for _ in range(4))
    points = [(x, y)]
    for index in range(seeded.randint(3, 12)):
        factors = [(-1) ** index * (1 + seeded.randint(-2, 2) * HAIR) for _ in range(2)]
        points.append((x + factors[0] * dx, y + factors[1] * dy))
    return points + points[: seeded.choice((0, 0, 1))]


class OtherOpinions(unittest.TestCase):
    def check_sides(self, shape):
        seeded = random.Random(754)
        found = set()
        for _ in range(1000):
            point, *corners = shape(seeded)
            numbers = [number for corner in corners for number in corner]
            reason = why(64, point, numbers)
            self.assertEqual(reason, by_sides(point, corners), (point, corners))
            place = answer_zone(words_of([*point, *numbers])).removeprefix(b"zone ")
            self.assertEqual(reason.split()[: len(place.split())], place.split())
            found |= {word for word in reason.split() if word.isalpha()}
        self.assertEqual(found, {b"inside", b"outside", b"border", b"corner", b"between", b"up", b"down"})

    def test_on_grids_reasons_are_those_of_sides(self):
        self.check_sides(on_grid)

    def test_past_the_point_reasons_are_those_of_sides(self):
        self.check_sides(past_the_point)

    def test_at_both_ends_of_the_range_reasons_are_those_of_sides(self):
        ends = [sign * end for end in (0.0, LEAST, 1.0, MOST) for sign in (1, -1)]
        self.check_sides(lambda seeded: [seeded.choices(ends, k=2) for _ in range(1 + seeded.randint(3, 8))])

    def test_turned_and_reversed_zones_count_the_same_edges(self):
        for point, corners, _, reason in BY_HAND:
            if reason.startswith(b"border"):
                continue
            zone = pairs(corners)
            place, total, entries = counted(point, zone)
            backwards = sorted((end, start, BACK[turn]) for start, end, turn in entries)
            for first in range(len(zone)):
                turned = zone[first:] + zone[:first]
                self.assertEqual(counted(point, turned), (place, total, entries))
                self.assertEqual(counted(point, turned[::-1]), (place, -total, backwards))
