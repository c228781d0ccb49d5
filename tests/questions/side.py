"""Questions of the kind side: three points."""

from itertools import permutations

from questions.doubles import any_number, any_significand, moved
from questions.lines import with_damaged
from questions.points import (
    ENDS, REFUSED, any_point, asked_of, chopped, grid_point, patterns, replaced, scaled,
)

FILTER = float.fromhex("0x1.0028010000002p-50")

# from 01 and its readings
NOTABLE = [
    [(0.0, 0.0), (1.0, 0.0), (0.0, 1.0)],
    [(0.0, 0.0), (1.0, 1.0), (2.0, 2.0)],
    [(0.0, 0.0), (1.0, 1.0), (1.0, 1 + 2.0**-50)],
    [(0.0, 0.0), (1.0, 1.0), (1.0, 1 + 2.0**-49)],
    [(0.0, 0.0), (2.0, 2.0), (1.0, 1 + 2.0**-50)],
    [(0.0, 0.0), (0.0, -0.0), (-0.0, 0.0)],
    [(3.0, 0.1), (3.0, 0.1), (3.0, 0.1)],
    [(1.0, 2.0), (1.0, 2.0), (3.0, 4.0)],
    [(1.0, 2.0), (1.0, 3.0), (1.0, 4.0)],
    [(-0.0, 2.0**400), (0.0, -(2.0**400)), (-0.0, 2.0**-400)],
    [(2.0**400, 2.0**400), (-(2.0**400), -(2.0**400)), (2.0**-400, -(2.0**-400))],
    [(0.1, 0.1), (0.3, 0.3), (0.7, 0.7)],
]

UNCLEAR = (
    b"side", b"side ", b"side" + 5 * b" 3ff0000000000000", b"side" + 7 * b" 3ff0000000000000",
    b"side" + 6 * b" 3ff0000000000000" + b" ", b"side " + 6 * b" 3ff0000000000000", b"side 0 0 0 0 0 0",
    b"side" + 5 * b" 7ff0000000000000" + b" x", b"side" + 5 * b" 7ff0000000000000" + b" 7ff000000000000",
    b"side" + 12 * b" 7ff0000000000000",
)


def questions(random):
    return with_damaged(random, UNCLEAR, asked_of(b"side", random, triples(random)))


def triples(random):
    """Six accepted patterns, or in the first questions one of them refused, without end."""
    for points in NOTABLE:
        for permuted in permutations(points):
            yield patterns(permuted)
    for place in range(6):
        for refused in REFUSED:
            yield replaced(patterns(random.choice(NOTABLE)), place, refused)
    while True:
        points = random.choice(SHAPES)(random)
        if random.randrange(2) == 0:
            points = scaled(random, points)
        if random.randrange(4) == 0:
            points = [(-x, y) for x, y in points]
        if random.randrange(8) == 0:
            yield from map(patterns, permutations(points))
        else:
            yield patterns(random.sample(points, 3))


# ---- shapes: three points


def scattered(random):
    return [any_point(random) for _ in range(3)]


def close(random):
    spread = random.choice((0, 3, 10, 60))
    return [(any_number(random, -spread, 0), any_number(random, -spread, 0)) for _ in range(3)]


def on_grid(random):
    size = random.choice((1, 2, 5, 1000))
    return [grid_point(random, size) for _ in range(3)]


def at_ends(random):
    """Coordinates at both ends of the range."""
    return [(random.choice(ENDS), random.choice(ENDS)) for _ in range(3)]


def on_line(random):
    """Exactly on one line: whole multiples of a step, from a start, of so few bits that none is lost."""
    most = 2 ** random.choice((3, 10, 20, 26))
    x, y, dx, dy, *multiples = (random.randint(-most, most) for _ in range(7))
    return [(float(x + k * dx), float(y + k * dy)) for k in multiples]


def near_line(random):
    """The third point on the line through the others, as well as doubles can tell, or nearly so."""
    p, q, _ = close(random)
    share = random.choice((0.5, 2.0, -1.0, 1.0, random.random(), any_number(random, -30, 30)))
    most = random.choice((0, 1, 2, 20))
    return [p, q, tuple(moved(random, start + share * (end - start), most) for start, end in zip(p, q))]


def chopped_line(random):
    """Near one line and then chopped, as far from 0 as plans are."""
    shift = random.choice((0, 1, 10, 100))
    return chopped(random, [(x + shift, y + shift) for x, y in near_line(random)])


def through_zero(random):
    """Multiples of one point, of very different size: each product pair cancels but for its roundoff."""
    x, y = any_number(random, -2, 2), any_number(random, -2, 2)
    spread = random.choice((5, 60, 250, 390))
    points = [(x, y)]
    for _ in range(2):
        factor = random.choice((1.0, 3.0, any_significand(random))) * 2.0 ** random.randint(-spread, spread)
        most = random.choice((0, 0, 1, 3))
        points.append((moved(random, factor * x, most), moved(random, factor * y, most)))
    return points


def at_filter(random):
    """D a few last places from E, where both products are about X times Y, and D is the difference of their ends."""
    D = random.choice((5, 6, 7, 8)) * 2.0**-52
    Y = random.choice((1.0, any_significand(random)))
    X = moved(random, D / FILTER / Y, 3)
    return [(0.0, 0.0), (X, Y), ((X * Y - D) / Y, Y)]


def at_filter_near_start(random):
    """D a few last places from E, where the third point is so near the first that both products are small."""
    X, Y = any_number(random, 0, 0), any_number(random, 0, 0)
    share = random.choice((0.0, 1.0, 0.5, random.random()))
    x, y = -(1 - share) * FILTER * X, share * FILTER * Y
    return [(0.0, 0.0), (X, Y), (moved(random, x, 2), moved(random, y, 2))]


SHAPES = (
    scattered, close, on_grid, at_ends, on_line, near_line, near_line, chopped_line, through_zero, at_filter,
    at_filter_near_start,
)
