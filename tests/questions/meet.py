"""Questions of the kind meet: two pieces, each two points."""

from itertools import chain, combinations_with_replacement, permutations

from questions.doubles import REACH, any_number, any_significand, moved, outward, pattern_of
from questions.lines import misspelled, with_damaged
from questions.points import (
    ENDS, REFUSED, any_coordinate, any_point, asked_of, chopped, either_zero, grid_point, patterns, replaced, scaled,
    with_bits,
)

PLACES = 8
LEAST, MOST = 2.0**-REACH, 2.0**REACH


def steps(start, step):
    """Four points of one line, each a step from the one before it; of so few bits that none is lost."""
    return [tuple(a + k * b for a, b in zip(start, step)) for k in range(4)]


FAR = steps((with_bits(70012.3, 40), with_bits(-80045.6, 40)), (with_bits(1020.1, 40), with_bits(-1019.8, 40)))
UNDER, OVER = [(x, outward(y)) for x, y in FAR], [(outward(x), y) for x, y in FAR]  # a last place beside that line
BRANCH = [(12.0, 12.0), (20.0, 0.0)]  # from the line of equal coordinates to below it

# a path, then a crease: each is asked in all its orders
NOTABLE = [
    # a cross; one whose place is no double, one of a level and an upright piece, and lines that cross beyond a piece
    [(0.0, 0.0), (4.0, 4.0), (0.0, 4.0), (4.0, 0.0)],
    [(0.0, 0.0), (7.0, 3.0), (0.0, 1.0), (1.0, 0.0)],
    [(-3.0, 0.0), (3.0, -0.0), (0.0, -3.0), (-0.0, 3.0)],
    [(0.0, 0.0), (2.0, 2.0), (1.5, 4.0), (4.0, 1.0)],
    [(0.0, 0.0), (4.0, 0.0), (5.0, 1.0), (5.0, -1.0)],
    # ends that touch; a T, and with a gap
    [(0.0, 0.0), (2.0, 2.0), (2.0, 2.0), (5.0, 0.0)],
    [(-0.0, 2.0), (1.0, 3.0), (0.0, 2.0), (-1.0, 4.0)],
    [(0.0, 0.0), (4.0, 0.0), (2.0, -0.0), (2.0, 3.0)],
    [(0.0, 0.0), (4.0, 2.0), (2.0, 1.0), (0.0, 5.0)],
    [(0.0, 0.0), (4.0, 0.0), (2.0, LEAST), (2.0, 3.0)],
    # on one line: apart, touching, overlapping, one inside the other, equal
    [(0.0, 0.0), (1.0, 2.0), (2.0, 4.0), (3.0, 6.0)],
    [(0.0, 0.0), (1.0, 2.0), (1.0, 2.0), (3.0, 6.0)],
    [(0.0, 0.0), (2.0, 4.0), (1.0, 2.0), (3.0, 6.0)],
    [(0.0, 0.0), (3.0, 6.0), (1.0, 2.0), (2.0, 4.0)],
    [(0.0, 0.0), (3.0, 6.0), (0.0, -0.0), (2.0, 4.0)],
    [(0.3, 0.1), (0.7, 0.2), (0.3, 0.1), (0.7, 0.2)],
    # side by side: slanting, level, upright
    [(0.0, 0.0), (4.0, 2.0), (0.0, 1.0), (4.0, 3.0)],
    [(0.0, 0.0), (4.0, 0.0), (1.0, 1.0), (3.0, 1.0)],
    [(1.0, 0.0), (1.0, 4.0), (2.0, 1.0), (2.0, 3.0)],
    # boxes with only a corner in common, with only an edge, one in the other
    [(0.0, 2.0), (2.0, 0.0), (2.0, 4.0), (4.0, 2.0)],
    [(0.0, 0.0), (2.0, 2.0), (2.0, 4.0), (4.0, 2.0)],
    [(0.0, 0.0), (2.0, 2.0), (2.0, 0.0), (4.0, 2.0)],
    [(0.0, 0.0), (4.0, 4.0), (2.0, 0.0), (4.0, 3.0)],
    # a piece of length zero: on the other, at its end, beyond it, in its box, outside, on a level one, on an upright one
    [(0.0, 0.0), (4.0, 2.0), (2.0, 1.0), (2.0, 1.0)],
    [(0.0, 0.0), (4.0, 2.0), (4.0, 2.0), (4.0, 2.0)],
    [(0.0, 0.0), (4.0, 2.0), (6.0, 3.0), (6.0, 3.0)],
    [(0.0, 0.0), (4.0, 2.0), (2.0, outward(1.0)), (2.0, outward(1.0))],
    [(0.0, 0.0), (4.0, 2.0), (9.0, -9.0), (9.0, -9.0)],
    [(0.0, 0.0), (4.0, -0.0), (0.1, -0.0), (0.1, 0.0)],
    [(0.3, 0.1), (0.3, 0.7), (0.3, 0.2), (0.3, 0.2)],
    # both of length zero: equal, of either zero, and not equal
    [(3.0, 0.1)] * 4,
    [(0.0, -0.0), (-0.0, 0.0), (-0.0, -0.0), (0.0, 0.0)],
    [(3.0, 0.1), (3.0, 0.1), (3.0, 0.2), (3.0, 0.2)],
    [(3.0, 0.1), (3.0, 0.1), (4.0, 0.1), (4.0, 0.1)],
    [(1.0, 2.0), (1.0, 2.0), (3.0, 4.0), (3.0, 4.0)],
    # nearly on one line: rounded sides are 0, or of the other sign
    [(0.5, 0.5), (24.0, 24.0)] + BRANCH,
    [(0.5, outward(0.5)), (24.0, 24.0)] + BRANCH,
    [(outward(0.5), 0.5), (24.0, 24.0)] + BRANCH,
    [(0.5, 0.5), (24.0, outward(24.0))] + BRANCH,
    [(0.5, 0.5), (outward(24.0), 24.0)] + BRANCH,
    [(0.1, 0.3), (0.7, 2.1), (0.2, 0.6), (0.2, -1.0)],
    [(0.1, 0.3), (0.7, 2.1), (0.2, 0.6), (0.3, 0.9)],
    [(4.8, 0.8), (1.8, 9.8), (3.9, 3.5), (9.0, 9.0)],
    [(4.8, 0.8), (1.8, 9.8), (3.9, 3.5), (0.0, 0.0)],
    [FAR[0], FAR[2], FAR[1], UNDER[3]],
    [FAR[0], FAR[3], UNDER[1], UNDER[2]],
    [FAR[0], FAR[3], UNDER[1], OVER[2]],
    [FAR[0], FAR[3], UNDER[1], (0.0, 1e9)],
    [FAR[0], FAR[3], UNDER[1], (0.0, -1e9)],
    # the far ends: crosses, Ts, and a path that passes 2^-1200 above an end of the crease
    [(-MOST, -MOST), (MOST, MOST), (-MOST, MOST), (MOST, -MOST)],
    [(LEAST, LEAST), (MOST, MOST), (LEAST, MOST), (MOST, LEAST)],
    [(-LEAST, -LEAST), (LEAST, LEAST), (-MOST, MOST), (MOST, -MOST)],
    [(-0.0, 0.0), (MOST, MOST), (LEAST, LEAST), (LEAST, -MOST)],
    [(-MOST, LEAST), (MOST, LEAST), (1.0, LEAST), (-MOST, -LEAST)],
    [(0.0, 0.0), (MOST, LEAST), (LEAST, 0.0), (LEAST, LEAST)],
    [(0.0, 0.0), (MOST, LEAST), (LEAST, 0.0), (LEAST, -LEAST)],
]

# all pairs of pieces between the points of a line are asked, those of length zero too
LINES = [
    steps((-1.0, 1.0), (1.0, 0.0)),
    steps((3.0, -2.0), (0.0, 1.0)),
    steps((-2.0, -1.0), (2.0, 1.0)),
    steps((0.0, 3.0), (1.0, -1.0)),
    FAR,
    [(0.1, 0.3), (0.2, 0.6), (0.3, 0.9), (0.7, 2.1)],  # nearly
    [(-MOST, -MOST), (-LEAST, -LEAST), (LEAST, LEAST), (MOST, MOST)],
    [(MOST, -MOST), (0.0, 0.0), (-LEAST, LEAST), (-1.0, 1.0)],
    [(0.0, MOST), (-0.0, LEAST), (0.0, -0.0), (-0.0, -1.0)],
]
GRID = [(x, y) for x in (-1.0, 0.0, 1.0) for y in (-1.0, 0.0, 1.0)]

UNCLEAR = misspelled(b"meet", PLACES, (6, 4, 16), (b"Meet", b"mee", b"meets"))


def questions(random):
    return with_damaged(random, UNCLEAR, asked_of(b"meet", random, fours(random)))


def fours(random):
    """Eight accepted patterns, or in the first questions one of them refused, without end."""
    for points in NOTABLE:
        yield from map(patterns, orders(points))
    for points in chain(*map(two_pieces, LINES), two_pieces(GRID)):
        yield any_order(random, points)
    for place in range(PLACES):
        for end in map(pattern_of, ENDS):
            yield replaced(patterns(random.choice(NOTABLE)), place, end)
        for refused in REFUSED:
            yield replaced(patterns(random.choice(NOTABLE)), place, refused)
    while True:
        points = random.choice(SHAPES)(random)
        if random.randrange(2) == 0:
            points = scaled(random, points)
        if random.randrange(4) == 0:
            points = [(-x, y) for x, y in points]
        if random.randrange(4) == 0:
            points = [(y, x) for x, y in points]
        if random.randrange(32) == 0:
            yield from map(patterns, orders(points))
        else:
            yield any_order(random, points)


def orders(points):
    """The two pieces with either of them first and each either way round: the answer is the same for all eight."""
    pieces = permutations((points[:2], points[2:]))
    return [first[::way] + second[::other] for first, second in pieces for way in (1, -1) for other in (1, -1)]


def any_order(random, points):
    """The patterns of two pieces in any order, and with zeros of either sign."""
    return patterns(random.choice(orders(either_zero(random, points))))


def two_pieces(points):
    """The four points of every two pieces between these points, in one order."""
    for path, crease in combinations_with_replacement(combinations_with_replacement(points, 2), 2):
        yield [*path, *crease]


# ---- shapes: four points


def scattered(random):
    return [any_point(random) for _ in range(4)]


def between_few(random):
    """Between two or three points of any size: shared ends, pieces of length zero, and the same piece again."""
    few = [any_point(random) for _ in range(random.choice((2, 3)))]
    return random.choices(few, k=4)


def close(random):
    spread = random.choice((0, 3, 10, 60))
    return [(any_number(random, -spread, 0), any_number(random, -spread, 0)) for _ in range(4)]


def huddled(random):
    """A few last places from one another."""
    x, y = any_number(random, -20, 20), any_number(random, -20, 20)
    most = random.choice((1, 2, 3, 1000))
    return [(moved(random, x, most), moved(random, y, most)) for _ in range(4)]


def on_grid(random):
    size = random.choice((1, 2, 3, 5, 1000))
    return [grid_point(random, size) for _ in range(4)]


def at_ends(random):
    """Coordinates at both ends of the range."""
    return [(random.choice(ENDS), random.choice(ENDS)) for _ in range(4)]


def boxed(random):
    """Level and upright pieces among others, with few coordinates of any size."""
    few = [any_coordinate(random) for _ in range(random.choice((2, 3, 4)))]
    points = []
    for _ in range(2):
        x, y, other_x, other_y = random.choices(few, k=4)
        points += [(x, y), random.choice(((x, other_y), (other_x, y), (other_x, other_y)))]
    return points


def level(random):
    """On one level, or nearly so."""
    y = any_number(random, -20, 20)
    few = [any_coordinate(random) for _ in range(random.choice((3, 5, 20)))]
    most = random.choice((0, 0, 0, 1))
    return [(random.choice(few), moved(random, y, most)) for _ in range(4)]


def on_line(random):
    """Exactly on one line: whole multiples of a step, from a start, of so few bits that none is lost."""
    most = 2 ** random.choice((3, 10, 20, 26))
    x, y, dx, dy = (random.randint(-most, most) for _ in range(4))
    many = random.choice((2, 4, most))
    return [(float(x + k * dx), float(y + k * dy)) for k in (random.randint(-many, many) for _ in range(4))]


def through_place(random):
    """Exactly through one place, or up to it, or not as far: whole multiples of a step for each piece."""
    most = 2 ** random.choice((3, 10, 20, 25))
    place, *both = ([random.randint(-most, most) for _ in range(2)] for _ in range(3))
    points = []
    for step in both:
        for k in (random.choice((0, -1, -2, -3, random.randint(-most, most))), random.choice((1, random.randint(1, most)))):
            points.append(tuple(float(a + k * b) for a, b in zip(place, step)))
    return points


def along(random, start, end):
    """On the piece of two points or on its line, as well as doubles can tell, or nearly so."""
    inside = random.choice((0.5, random.random()))
    share = random.choice((inside, inside, inside, 0.0, 1.0, random.choice((2.0, -1.0, any_number(random, -30, 30)))))
    most = random.choice((0, 0, 1, 2, 20))
    return tuple(moved(random, a + share * (b - a), most) for a, b in zip(start, end))


def tee(random):
    """The crease ends on the path, as well as doubles can tell, or nearly so, or beyond it."""
    p, q, r, _ = close(random)
    place = along(random, p, q)
    beyond = random.choice((0.0, 1.0, any_number(random, -60, 0)))
    return [p, q, r, tuple(a + beyond * (a - b) for a, b in zip(place, r))]


def near_line(random):
    """Both on one line, or nearly so."""
    p, q, *_ = close(random)
    return [p, q, along(random, p, q), along(random, p, q)]


def chopped_near(random):
    """Near one line or a T, and then chopped, as far from 0 as plans are."""
    shift = random.choice((0, 1, 10, 100))
    points = random.choice((tee, near_line))(random)
    return chopped(random, [(x + shift, y + shift) for x, y in points])


def far_off(random):
    """Exactly on one line, of many bits, and far from 0; at times all a last place beside it."""
    bits = random.choice((10, 24, 29, 40, 45))
    start = [with_bits(any_number(random, 10, 20), bits) for _ in range(2)]
    step = [with_bits(a * (1 + random.random() / 2), bits) - a for a in start]
    most = random.choice((0, 0, 1))
    multiples = [random.randint(-3, 3) for _ in range(4)]
    return [tuple(moved(random, a + k * b, most) for a, b in zip(start, step)) for k in multiples]


def with_shared_end(random):
    """An end of both, or nearly so, at any angle or on one line."""
    p, q, _, s = close(random)
    most = random.choice((0, 0, 0, 1))
    shared = tuple(moved(random, coordinate, most) for coordinate in q)
    return [p, q, shared, random.choice((s, s, along(random, p, q)))]


def with_point(random):
    """A piece of length zero: on the other or its line, or nearly so, or anywhere."""
    p, q, r, _ = random.choice((near_line, on_grid, on_line, far_off))(random)
    return [p, q, r, r]


def through_zero(random):
    """Multiples of one point, of very different size, and at times one end anywhere."""
    bits = random.choice((10, 50, 52))
    x, y = (with_bits(any_number(random, -2, 2), bits) for _ in range(2))
    spread = random.choice((5, 60, 250, 390))
    significand = random.choice((1.0, 3.0, any_significand(random)))
    most = random.choice((0, 0, 0, 1))
    points = []
    for _ in range(4):
        factor = random.choice((1.0, 1.0, -1.0, significand)) * 2.0 ** random.randint(-spread, spread)
        points.append((moved(random, factor * x, most), moved(random, factor * y, most)))
    return random.choice((points, points, points[:3] + [any_point(random)]))


SHAPES = (
    scattered, between_few, close, huddled, on_grid, at_ends, boxed, near_line, chopped_near, with_shared_end, with_point,
    through_zero,
) + 3 * (level, on_line, far_off, through_place, tee)
