"""Questions of the kind zone: a point and the corners of a zone."""

from questions.doubles import moved
from questions.lines import with_damaged
from questions.points import (
    ENDS, REFUSED, any_point, asked_of, chopped, grid_point, patterns, replaced, scaled, with_refused,
)

SQUARE = [(0.0, 0.0), (4.0, 0.0), (4.0, 4.0), (0.0, 4.0)]

# zones that are easily misjudged, each asked with every point of a grid around it
NOTABLE = [
    SQUARE,
    SQUARE[::-1],
    SQUARE * 2,
    SQUARE + SQUARE[::-1],
    SQUARE + SQUARE[:1] + SQUARE[:0:-1],
    SQUARE * 16,
    [(-0.0, 0.0), (0.0, 0.0), (4.0, -0.0), (4.0, 4.0), (4.0, 4.0), (-0.0, 4.0)],  # repeated corners, both zeros
    [(2.0, 0.0), (4.0, 2.0), (2.0, 4.0), (0.0, 2.0)],  # rays through corners
    [(0.0, 0.0), (4.0, 4.0), (4.0, 0.0), (0.0, 4.0)],  # crosses itself
    [(0.0, 3.0), (4.0, 3.0), (1.0, 0.0), (2.0, 5.0), (3.0, 0.0)],  # a star, whose middle is gone round twice
    [(0.0, 0.0), (5.0, 0.0), (5.0, 5.0), (0.0, 5.0), (0.0, 0.0), (1.0, 1.0), (3.0, 1.0), (3.0, 3.0), (1.0, 3.0), (1.0, 1.0)],  # a square in a square
    [(0.0, 0.0), (5.0, 0.0), (5.0, 5.0), (0.0, 5.0), (0.0, 0.0), (1.0, 1.0), (1.0, 3.0), (3.0, 3.0), (3.0, 1.0), (1.0, 1.0)],  # the other way round
    [(0.0, 0.0), (3.0, 0.0), (3.0, 3.0), (0.0, 3.0), (0.0, 0.0), (1.0, 1.0), (1.0, 4.0), (4.0, 4.0), (4.0, 1.0), (1.0, 1.0)],  # one over the other
    [(0.0, 0.0), (4.0, 0.0), (4.0, 4.0), (2.0, 0.0), (0.0, 4.0)],  # touches itself
    [(0.0, 0.0), (4.0, 0.0), (4.0, 4.0), (3.0, 4.0), (3.0, 2.0), (1.0, 2.0), (1.0, 4.0), (0.0, 4.0)],
    [(1.0, 1.0)] * 3,
    [(0.0, 0.0), (4.0, 4.0), (2.0, 2.0)],
    [(0.0, 2.0), (4.0, 2.0), (2.0, 2.0), (3.0, 2.0)],
]

UNCLEAR = (
    b"zone", b"zone ", b"zone 3ff0000000000000", b"zone 7ff0000000000000", b"zone 0 0 0 0 0 0 0 0",
    b"zone" + 8 * b" 3ff0000000000000" + b" ", b"zone " + 8 * b" 3ff0000000000000", b"zone" + 8 * b" 3ff000000000000",
    b"zone" + 129 * b" 7ff0000000000000" + b" x", b"zone" + 130 * b" 3ff0000000000000" + b" x",
    b"zone" + 131 * b" 3ff0000000000000" + b" x", b"zone" + 132 * b" 3ff0000000000000" + b" x",
    b"zone" + 999 * b" 3ff0000000000000" + b" x",
)


def questions(random):
    return with_damaged(random, UNCLEAR, asked_of(b"zone", random, zones(random)))


def zones(random, more_shapes=()):
    """Patterns of a point and its corners, without end; also of more shapes than those below."""
    for length in NOTABLE_LENGTHS:
        yield from of_length(random, length)
    yield from with_every_refusal(random)
    for zone in NOTABLE:
        for x in range(-1, 6):
            for y in range(-1, 6):
                yield patterns([(float(x), float(y))] + zone)
    while True:
        yield from map(patterns, random.choice(SHAPES + more_shapes)(random))
        if random.randrange(32) == 0:
            yield from of_length(random, random.choice((random.randint(2, 9), random.randint(120, 150))))


NOTABLE_LENGTHS = list(range(2, 12)) + list(range(126, 140)) + [258, 259, 1026, 1027]


def of_length(random, length):
    """A list that may be odd, too short or too long, without and with a refused coordinate."""
    accepted = patterns([any_point(random) for _ in range(length // 2 + 1)])[:length]
    yield accepted
    yield with_refused(random, accepted)


def with_every_refusal(random):
    for place in range(2 + 2 * 4):
        for refused in REFUSED:
            yield replaced(patterns([(1.0, 1.0)] + SQUARE), place, refused)
    for place in range(2 + 2 * 64):
        accepted = patterns([grid_point(random, 9) for _ in range(1 + 64)])
        yield replaced(accepted, place, random.choice(REFUSED))


# ---- shapes: lists of a point and the corners after it


def corner_count(random):
    return random.choice((3, 3, 4, 5, 6, 64, random.randint(3, 64)))


def on_grid(random):
    """Corners and point of a small grid: repeated corners, edges through the point, rays through corners."""
    size = random.choice((1, 2, 4, 8))
    yield [grid_point(random, size) for _ in range(1 + corner_count(random))]


def scattered(random):
    yield [any_point(random) for _ in range(1 + corner_count(random))]


def at_ends(random):
    """Coordinates at both ends of the range."""
    yield [(random.choice(ENDS), random.choice(ENDS)) for _ in range(1 + random.randint(3, 8))]


def ring(random, count):
    """So many corners of a zone that goes round once, not always convex, on both sides of 0."""
    corners = []
    for index in range(count):
        # a rational point of the circle, and how far out it stands
        t = (index * 4 / count) % 1 * 2 - 1
        x, y = (1 - t * t) / (1 + t * t), 2 * t / (1 + t * t)
        for _ in range(index * 4 // count):
            x, y = -y, x
        out = random.choice((1.0, 1.0, 3.0, 1 + random.random()))
        corners.append((x * out, y * out))
    return corners


def on_edge(random, zone):
    """A point of an edge, as well as doubles can tell, or a last place beside it."""
    start = random.randrange(len(zone))
    share = random.choice((0.0, 0.5, 1.0, 0.25, random.random(), 2.0, -1.0))
    most = random.choice((0, 0, 1, 2))
    return tuple(moved(random, a + share * (b - a), most) for a, b in zip(zone[start - 1], zone[start]))


def in_ring(random):
    """A ring and a point on or near its border, level with a corner, or anywhere; in any turn."""
    zone = ring(random, corner_count(random))
    if random.randrange(2) == 0:
        zone = chopped(random, zone)
    point = random.choice((
        on_edge(random, zone),
        chopped(random, [on_edge(random, zone)])[0],
        (4 * random.random() - 2, random.choice(zone)[1]),
        (random.random() - 0.5, random.random() - 0.5),
    ))
    for _ in range(2):
        yield scaled(random, [point] + zone) if random.randrange(4) == 0 else [point] + zone
        zone = in_any_turn(random, zone)


def in_any_turn(random, zone):
    """The corners from any of them on, either way round."""
    first = random.randrange(len(zone))
    return (zone[first:] + zone[:first])[:: random.choice((1, -1))]


def sharing_an_edge(random):
    """Two zones that share an edge, gone along both ways, their joint outline, and a point on the edge that was chopped."""
    shared = chopped(random, [(random.random() * 20, random.random() * 20) for _ in range(2)])
    point = chopped(random, [on_edge(random, shared)])[0]
    left = [(random.random() * -20, random.random() * 20) for _ in range(random.randint(1, 6))]
    right = [(20 + random.random() * 20, random.random() * 20) for _ in range(random.randint(1, 6))]
    yield [point] + shared + left
    yield [point] + shared[::-1] + right
    yield [point] + shared[1:] + left + shared[:1] + right


def repeating(random):
    """Corners that stand there more than once, next to each other or gone round twice."""
    zone = [grid_point(random, 3) for _ in range(random.randint(3, 20))]
    at = random.randrange(len(zone))
    for doubled in (zone[:at] + [zone[at]] * random.randint(2, 5) + zone[at + 1 :], zone * 2, zone * 3):
        yield [grid_point(random, 3)] + doubled


def crossing(random):
    """A ring whose corners are joined by leaps, as a star's are, and a point anywhere or on its border."""
    zone = ring(random, corner_count(random))
    leap = random.randint(2, 5)
    zone = [zone[index * leap % len(zone)] for index in range(len(zone))]
    if random.randrange(2) == 0:
        zone = chopped(random, zone)
    for _ in range(2):
        yield [random.choice((on_edge(random, zone), (2 * random.random() - 1, 2 * random.random() - 1)))] + zone


def two_loops(random):
    """Two loops through one corner, by themselves and as one zone; in that also with the second the other way round."""
    at = grid_point(random, 3)
    one, two = ([at] + [grid_point(random, 4) for _ in range(random.randint(2, 9))] for _ in range(2))
    point = grid_point(random, 4)
    yield from ([point] + one, [point] + two, [point] + one + two, [point] + one + two[:1] + two[:0:-1])


def on_one_line(random):
    """A zone without an inside."""
    dx, dy = grid_point(random, 2)
    yield [(k * dx, k * dy) for k in (random.randint(-4, 4) for _ in range(1 + corner_count(random)))]


SHAPES = (
    on_grid, on_grid, scattered, at_ends, in_ring, in_ring, in_ring, sharing_an_edge, repeating, crossing, two_loops,
    on_one_line,
)
