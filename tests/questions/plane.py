"""Questions of the kind plane: four points, each with a height."""

from itertools import permutations

from questions.doubles import any_number, any_significand, float_of, moved, pattern_of
from questions.lines import misspelled, with_damaged
from questions.points import (
    any_coordinate, asked_of, chopped, ends_of, grid_point, patterns, refused_of, replaced, scaled, with_bits,
)

REACH = 300
ENDS, REFUSED = ends_of(REACH), refused_of(REACH)
PLACES = 12
LEAST, MOST = 2.0**-REACH, 2.0**REACH


def fourth(p, q, r):
    """The corner of a parallelogram: on the plane of the others."""
    return tuple(b + c - a for a, b, c in zip(p, q, r))


CORNERS = [(0.0, 0.0, 0.0), (1.0, 0.0, 0.0), (0.0, 1.0, 0.0), (0.0, 0.0, 1.0)]
BAILS = [(20.1, 0.1, 0.711), (20.1, -0.1, 0.711), (20.3, 0.0, 0.711)]
FAR = [
    tuple(with_bits(coordinate, 40) for coordinate in point)
    for point in ((70012.3, -80045.6, 90078.9), (71032.1, -81065.4, 91098.7), (72011.1, -84022.2, 98033.3))
]

# each is asked in all its orders
NOTABLE = [
    CORNERS,
    [(3.0, 0.1, 0.7)] * 4,
    [(1.0, 2.0, 3.0), (1.0, 2.0, 3.0), (4.0, 5.0, 6.0), (7.0, 8.0, 10.0)],
    [(0.1, 0.2, 0.3), (0.7, 0.1, 0.3), (0.4, 0.9, 0.3), (0.2, 0.6, 0.3)],
    [(0.0, -0.0, 0.0), (-0.0, 0.0, -0.0), (-0.0, -0.0, -0.0), (0.0, 0.0, 0.0)],
    [(-0.0, 0.0, -0.0), (1.0, -0.0, 0.0), (0.0, 1.0, -0.0), (-0.0, -0.0, 1.0)],
    BAILS + [(20.2, 0.0, 0.711)],
    BAILS + [(20.2, 0.0, float_of(pattern_of(0.711) + 1))],
    BAILS + [(20.2, 0.0, float_of(pattern_of(0.711) - 1))],
    FAR + [fourth(*FAR)],
    [(MOST, LEAST, MOST), (LEAST, MOST, -MOST), (-MOST, MOST, LEAST), (0.0, -0.0, 0.0)],
    [(MOST, MOST, MOST), (-MOST, MOST, MOST), (MOST, -MOST, MOST), (LEAST, LEAST, LEAST)],
]

UNCLEAR = misspelled(b"plane", PLACES, (6, 24), (b"Plane", b"plan", b"planes"))


def questions(random):
    return with_damaged(random, UNCLEAR, asked_of(b"plane", random, fours(random), REFUSED))


def fours(random):
    """Twelve accepted patterns, or in the first questions one of them refused, without end."""
    for points in NOTABLE:
        for permuted in permutations(points):
            yield patterns(permuted)
    for place in range(PLACES):
        for end in map(pattern_of, ENDS):
            yield replaced(patterns(random.choice(NOTABLE)), place, end)
        for refused in REFUSED:
            yield replaced(patterns(random.choice(NOTABLE)), place, refused)
    while True:
        points = random.choice(SHAPES)(random)
        if random.randrange(2) == 0:
            points = scaled(random, points, REACH)
        if random.randrange(4) == 0:
            points = [(-x, y, height) for x, y, height in points]
        if random.randrange(4) == 0:
            axes = random.sample(range(3), 3)
            points = [tuple(point[axis] for axis in axes) for point in points]
        if random.randrange(32) == 0:
            yield from map(patterns, permutations(points))
        else:
            yield patterns(random.sample(points, 4))


# ---- shapes: four points


def scattered(random):
    return [tuple(any_coordinate(random, REACH) for _ in range(3)) for _ in range(4)]


def close(random):
    spread = random.choice((0, 3, 10, 60))
    return [tuple(any_number(random, -spread, 0) for _ in range(3)) for _ in range(4)]


def huddled(random):
    """A few last places from one another."""
    point = [any_number(random, -20, 20) for _ in range(3)]
    most = random.choice((1, 3, 1000))
    return [tuple(moved(random, coordinate, most) for coordinate in point) for _ in range(4)]


def on_grid(random):
    size = random.choice((1, 2, 5, 1000))
    return [grid_point(random, size, 3) for _ in range(4)]


def at_ends(random):
    """Coordinates at both ends of the range."""
    return [tuple(random.choice(ENDS) for _ in range(3)) for _ in range(4)]


def on_plane(random):
    """Exactly on one plane: whole multiples of two steps, from a start, of so few bits that none is lost."""
    most = 2 ** random.choice((3, 10, 20, 25))
    start, one, other = ([random.randint(-most, most) for _ in range(3)] for _ in range(3))
    multiples = [(random.randint(-most, most), random.randint(-most, most)) for _ in range(4)]
    return [tuple(float(a + k * b + m * c) for a, b, c in zip(start, one, other)) for k, m in multiples]


def near_plane(random):
    """The ball on the plane of the others, as well as doubles can tell, or nearly so."""
    p, q, r, _ = close(random)
    k, m = (random.choice((0.0, 0.5, 1.0, -1.0, random.random(), any_number(random, -30, 30))) for _ in range(2))
    most = random.choice((0, 1, 2, 20))
    return [p, q, r, tuple(moved(random, a + k * (b - a) + m * (c - a), most) for a, b, c in zip(p, q, r))]


def chopped_plane(random):
    """Near one plane and then chopped, as far from 0 as grounds are."""
    shift = random.choice((0, 1, 10, 100))
    return chopped(random, [tuple(coordinate + shift for coordinate in point) for point in near_plane(random)])


def far_off(random):
    """Exactly on one plane, of many bits, and far from 0: it takes many steps to come to nothing."""
    bits = random.choice((10, 24, 29, 40, 45))
    start = [any_number(random, 10, 20) for _ in range(3)]
    p, q, r = (tuple(with_bits(a * (1 + random.random() / 2), bits) for a in start) for _ in range(3))
    most = random.choice((0, 0, 0, 1))
    return [p, q, r, tuple(moved(random, coordinate, most) for coordinate in fourth(p, q, r))]


def one_height(random):
    """The plane level, and the ball at its height or a few last places from it."""
    points = close(random)
    height = any_number(random, -10, 10)
    most = random.choice((0, 1, 1, 20))
    return [(x, y, height) for x, y, _ in points[:3]] + [(*points[3][:2], moved(random, height, most))]


def upright(random):
    """The plane stands on a line of the ground: heights of any size, x and y of very different ones."""
    slope = random.choice((1.0, -1.0, 3.0, 0.75, any_significand(random)))
    most = random.choice((0, 0, 1, 3))
    points = []
    for _ in range(4):
        # few bits, so that x times the slope is often exact
        x = with_bits(any_number(random, -290, 290), random.choice((0, 10, 52)))
        points.append((x, moved(random, slope * x, most), any_coordinate(random, REACH)))
    return points


def through_zero(random):
    """Multiples of one point, of very different size: products cancel but for their roundoffs."""
    point = [any_number(random, -2, 2) for _ in range(3)]
    spread = random.choice((5, 60, 200, 290))
    points = []
    for _ in range(4):
        factor = random.choice((1.0, 3.0, any_significand(random))) * 2.0 ** random.randint(-spread, spread)
        most = random.choice((0, 0, 1, 3))
        points.append(tuple(moved(random, factor * coordinate, most) for coordinate in point))
    return points


SHAPES = (
    scattered, close, huddled, on_grid, at_ends, on_plane, near_plane, near_plane, chopped_plane, far_off, far_off,
    one_height, upright, through_zero,
)
