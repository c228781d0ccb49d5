"""Meetings, against answers seen on paper, and against the signs of determinants in Python's fractions."""

import random
import unittest
from fractions import Fraction

from floats import words_of
from meetings import answer_meet
from words import Refused, Unclear

LEAST, MOST = 2.0**-400, 2.0**400
HAIR = 2.0**-52

# the path, the crease, and how they meet
BY_HAND = [
    # general positions: a cross, one whose place is no double, lines that cross beyond one piece or both
    ((0, 0), (4, 4), (0, 4), (4, 0), b"crossing"),
    ((0, 0), (7, 3), (0, 1), (1, 0), b"crossing"),
    ((0, 0), (2, 2), (1.5, 4), (4, 1), b"apart"),
    ((0, 0), (1, 1), (5, 0), (4, 1), b"apart"),
    # ends that touch, a T, and each with a gap or with an end beyond
    ((0, 0), (2, 2), (2, 2), (5, 0), b"touching"),
    ((0, 0), (2, 2), (2 + 2 * HAIR, 2), (5, 0), b"apart"),
    ((0, 0), (4, 2), (2, 1), (0, 5), b"touching"),
    ((0, 0), (4, 2), (2, 1 + HAIR), (0, 5), b"apart"),
    ((0, 0), (4, 2), (2, 1 - HAIR), (0, 5), b"crossing"),
    # on one line
    ((0, 0), (1, 2), (2, 4), (3, 6), b"apart"),
    ((0, 0), (1, 2), (1, 2), (3, 6), b"touching"),
    ((0, 0), (2, 4), (1, 2), (3, 6), b"overlapping"),
    ((0, 0), (3, 6), (1, 2), (2, 4), b"overlapping"),
    ((0, 0), (3, 6), (0, 0), (2, 4), b"overlapping"),
    ((0.1, 0.3), (0.7, 0.2), (0.1, 0.3), (0.7, 0.2), b"overlapping"),
    ((0, 3), (1, 2), (1, 2), (3, 0), b"touching"),
    ((0, 3), (2, 1), (1, 2), (3, 0), b"overlapping"),
    # level and upright
    ((-3, 0), (3, 0), (0, -3), (0, 3), b"crossing"),
    ((-3, 0), (3, 0), (0, 0), (0, 3), b"touching"),
    ((-3, 0), (3, 0), (3, 0), (3, 3), b"touching"),
    ((-3, 0), (3, 0), (4, -1), (4, 1), b"apart"),
    ((0, 0), (4, 0), (1, 1), (3, 1), b"apart"),
    ((1, 0), (1, 4), (2, 1), (2, 3), b"apart"),
    ((0, 1), (2, 1), (3, 1), (4, 1), b"apart"),
    ((0, 1), (3, 1), (3, 1), (4, 1), b"touching"),
    ((0, 1), (3, 1), (2, 1), (4, 1), b"overlapping"),
    # side by side, and boxes that share a corner, an edge, or more
    ((0, 0), (4, 2), (0, 1), (4, 3), b"apart"),
    ((0, 2), (2, 0), (2, 4), (4, 2), b"apart"),
    ((0, 0), (2, 2), (2, 0), (4, 2), b"apart"),
    ((0, 0), (4, 4), (2, 0), (4, 3), b"apart"),
    # a piece of length zero: on the other, at its end, beyond it, in its box
    ((0, 0), (4, 2), (2, 1), (2, 1), b"touching"),
    ((0, 0), (4, 2), (4, 2), (4, 2), b"touching"),
    ((0, 0), (4, 2), (6, 3), (6, 3), b"apart"),
    ((0, 0), (4, 2), (2, 1 + HAIR), (2, 1 + HAIR), b"apart"),
    ((0.3, 0.1), (0.3, 0.7), (0.3, 0.2), (0.3, 0.2), b"touching"),
    # both of length zero
    ((3, 0.1), (3, 0.1), (3, 0.1), (3, 0.1), b"touching"),
    ((3, 0.1), (3, 0.1), (3, 0.2), (3, 0.2), b"apart"),
    ((3, 0.1), (3, 0.1), (4, 0.1), (4, 0.1), b"apart"),
    # the ends of the range
    ((-MOST, -MOST), (MOST, MOST), (-MOST, MOST), (MOST, -MOST), b"crossing"),
    ((-MOST, -MOST), (MOST, MOST), (-LEAST, LEAST), (LEAST, -LEAST), b"crossing"),
    ((-MOST, -MOST), (MOST, MOST), (LEAST, LEAST), (LEAST, -MOST), b"touching"),
    ((-MOST, -MOST), (LEAST, LEAST), (-LEAST, -LEAST), (MOST, MOST), b"overlapping"),
    ((-MOST, -MOST), (-LEAST, -LEAST), (LEAST, LEAST), (MOST, MOST), b"apart"),
    # at x = 2^-400 the path is 2^-1200 above 0
    ((0, 0), (MOST, LEAST), (LEAST, 0), (LEAST, LEAST), b"crossing"),
    ((0, 0), (MOST, LEAST), (LEAST, 0), (LEAST, -LEAST), b"apart"),
]


def meet(points):
    answer = answer_meet(words_of([float(coordinate) for point in points for coordinate in point]))
    return answer.removeprefix(b"meet ")


def orders(p, q, r, s):
    """Either piece first, and each either way round."""
    for path in ((p, q), (q, p)):
        for crease in ((r, s), (s, r)):
            yield path + crease
            yield crease + path


class ByHand(unittest.TestCase):
    def test_answers(self):
        for *points, expected in BY_HAND:
            with self.subTest(points):
                self.assertEqual(meet(points), expected)

    def test_every_order_mirrored_and_with_the_axes_exchanged(self):
        for *points, expected in BY_HAND:
            for other in (points, [(-x, y) for x, y in points], [(y, x) for x, y in points]):
                self.assertEqual({meet(order) for order in orders(*map(tuple, other))}, {expected})

    def test_either_zero(self):
        seeded = random.Random(754)
        for *points, expected in BY_HAND * 9:
            signed = [[coordinate or seeded.choice((0.0, -0.0)) for coordinate in point] for point in points]
            self.assertEqual(meet(signed), expected)

    def test_refusals(self):
        for refused in (2.0**400 + 2.0**348, 2.0**-400 - 2.0**-453, 5e-324, float("inf"), float("nan")):
            for place in range(8):
                for numbers in ([1.0] * place + [refused] * (8 - place), [0.0] * place + [-refused] + [1.0] * (7 - place)):
                    with self.assertRaises(Refused) as refusal:
                        answer_meet(words_of(numbers))
                    self.assertEqual((refusal.exception.number, refusal.exception.place), (3, place))

    def test_lines(self):
        zero, one, infinity = words_of([0.0, 1.0, float("inf")])
        self.assertEqual(answer_meet([zero, zero, one, one, zero, one, one, zero]), b"meet crossing")
        for words in (
            [], [one] * 7, [one] * 9, [one] * 16, [one] * 7 + [b"x"], [one] * 7 + [b""],
            [infinity] * 7, [infinity] * 9, [infinity] * 7 + [b"x"],
        ):
            with self.assertRaises(Unclear):
                answer_meet(words)


def side(p, q, r):
    (px, py), (qx, qy), (rx, ry) = p, q, r
    exact = (qx - px) * (ry - py) - (qy - py) * (rx - px)
    return (exact > 0) - (exact < 0)


def by_sides(points):
    """The answer from four sides, and on one line from what the two boxes share."""
    p, q, r, s = [tuple(map(Fraction, point)) for point in points]
    of_crease, of_path = (side(p, q, r), side(p, q, s)), (side(r, s, p), side(r, s, q))
    if of_crease in ((1, 1), (-1, -1)) or of_path in ((1, 1), (-1, -1)):
        return b"apart"
    if any(of_crease + of_path):
        return b"crossing" if all(of_crease + of_path) else b"touching"
    low = [max(min(a, b), min(c, d)) for a, b, c, d in zip(p, q, r, s)]
    high = [min(max(a, b), max(c, d)) for a, b, c, d in zip(p, q, r, s)]
    if low[0] > high[0] or low[1] > high[1]:
        return b"apart"
    return b"touching" if low == high else b"overlapping"


def on_grid(seeded):
    size = seeded.choice((1, 2, 4))
    return [(seeded.randint(-size, size), seeded.randint(-size, size)) for _ in range(4)]


def near_line(seeded):
    """The crease on the line of the path, as well as doubles can tell, or with an end a few last places away."""
    p, q = [[seeded.choice((seeded.random(), seeded.randint(1, 9) / 8)) for _ in range(2)] for _ in range(2)]
    points = [p, q]
    for _ in range(2):
        share = seeded.choice((0, 1, 0.5, seeded.random(), seeded.randint(-3, 3)))
        factor = 1 + seeded.choice((0, 0, 1, 9)) * HAIR
        points.append([(start + share * (end - start)) * factor for start, end in zip(p, q)])
    return points


class OtherOpinions(unittest.TestCase):
    def check_sides(self, shape):
        seeded = random.Random(754)
        answers = set()
        for _ in range(3000):
            points = shape(seeded)
            answer = meet(points)
            self.assertEqual(answer, by_sides(points), points)
            answers.add(answer)
        self.assertEqual(answers, {b"apart", b"touching", b"crossing", b"overlapping"})

    def test_on_grids_answers_are_those_of_sides(self):
        self.check_sides(on_grid)

    def test_near_one_line_answers_are_those_of_sides(self):
        self.check_sides(near_line)

    def test_at_both_ends_of_the_range_answers_are_those_of_sides(self):
        ends = [sign * end for end in (0.0, LEAST, 1.0, MOST) for sign in (1, -1)]
        self.check_sides(lambda seeded: [seeded.choices(ends, k=2) for _ in range(4)])

    def test_order_moves_no_answer(self):
        seeded = random.Random(754)
        for shape in (on_grid, near_line):
            for _ in range(300):
                self.assertEqual(len({meet(order) for order in orders(*map(tuple, shape(seeded)))}), 1)

    def test_pieces_through_a_place(self):
        # from so many steps before the place to so many after it, in two directions
        seeded = random.Random(754)
        for _ in range(1000):
            x, y, dx, dy = (seeded.randint(-(2**20), 2**20) for _ in range(4))
            before, after, before_too, after_too = (seeded.choice((0, 1, seeded.randint(1, 2**20))) for _ in range(4))
            path = [(x - before * dx, y - before * dy), (x + after * dx, y + after * dy)]
            crease = [(x + before_too * dy, y - before_too * dx), (x - after_too * dy, y + after_too * dx)]
            has_end = dx == dy == 0 or 0 in (before, after, before_too, after_too)
            self.assertEqual(meet(path + crease), b"touching" if has_end else b"crossing")
