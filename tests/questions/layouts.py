"""Layouts for the kind plan: zones beside, over and in one another, and a release that tells them apart; as floats."""

from itertools import chain

from questions import why, zone
from questions.points import chopped, either_zero, grid_point, scaled
from questions.zone import in_any_turn, on_edge, ring

MOST_ZONES, MOST_CORNERS = 16, 64
SIZES = (0.25, 0.5, 1.0, 1.5, 2.0, 3.0)


def rectangle(left, low, right, high):
    return [(float(x), float(y)) for x, y in ((left, low), (right, low), (right, high), (left, high))]


def plans(random, ways):
    """Corner counts and points, without end: a release, then at most 16 zones, each from any corner on and either way."""
    while True:
        for release, zones in random.choice(ways)(random):
            zones = [in_any_turn(random, own) for own in zones[:MOST_ZONES]]
            points = [release, *chain(*zones)]
            if random.randrange(4) == 0:
                points = scaled(random, points)
            yield [len(own) for own in zones], either_zero(random, points)


# ---- ways to make a few plans: a release and the zones of each


def asked_again(random):
    """All that a shape of the kind zone or why makes for one point: turns of a zone, zones and their outline, loops."""
    lists = [*random.choice(zone.SHAPES + why.SHAPES)(random)]
    yield random.choice(lists)[0], [corners for _, *corners in lists]


def asked_of_layout(random):
    """One layout or two at once, with some releases, each time with its zones in any order."""
    zones = any_layout(random)
    if random.randrange(6) == 0:
        zones = zones + any_layout(random)
    if random.randrange(4) == 0:
        zones = chopped_together(random, zones)
    for _ in range(3):
        yield any_release(random, zones), zones
        zones = random.sample(zones, len(zones))


def chopped_together(random, zones):
    """What zones share, they still share."""
    corners = iter(chopped(random, [*chain(*zones)]))
    return [[next(corners) for _ in own] for own in zones]


def largest(random):
    """As many zones as may be, of as many corners: apart, or one over the next ones."""
    step = random.choice((0, 2, 8))
    zones = [[(x + step * index, y) for x, y in ring(random, MOST_CORNERS)] for index in range(MOST_ZONES)]
    yield any_release(random, zones), zones


WAYS = 200 * (asked_again,) + 800 * (asked_of_layout,) + (largest,)


# ---- releases


def any_release(random, zones):
    return random.choice(RELEASES)(random, random.choice(zones), zones)


def on_border(random, own, _):
    """Of an edge, as well as doubles can tell, or a last place beside it."""
    return on_edge(random, own)


def at_corner(random, own, _):
    return random.choice(own)


def among_corners(random, own, _):
    """Inside, where the zone is convex."""
    share, other = random.random(), random.random() / 2
    (ax, ay), (bx, by), (cx, cy) = random.choices(own, k=3)
    return ax + share * (bx - ax) + other * (cx - ax), ay + share * (by - ay) + other * (cy - ay)


def in_the_middle(_, own, __):
    return tuple(sum(axis) / len(own) for axis in zip(*own))


def level_and_upright(random, own, zones):
    """Level with a corner, and upright over another zone's."""
    return random.choice(random.choice(zones))[0], random.choice(own)[1]


RELEASES = 2 * (on_border, among_corners, in_the_middle) + (at_corner, level_and_upright)


# ---- layouts: lists of zones


def any_layout(random):
    return random.choice(LAYOUTS)(random)


def positions(random, many):
    """So many coordinates in order: whole ones, at times two of them the same, or any."""
    if random.randrange(2) == 0:
        return sorted(float(random.randint(-9, 9)) for _ in range(many))
    return sorted(random.uniform(-20, 20) for _ in range(many))


def cells(random):
    """A grid: two beside each other share an edge, four a corner."""
    xs, ys = (positions(random, random.choice((2, 3, 3, 4, 5))) for _ in range(2))
    return [rectangle(left, low, right, high) for left, right in zip(xs, xs[1:]) for low, high in zip(ys, ys[1:])]


def strips(random):
    """Across a crease, each from one slanting line to the next."""
    many = random.choice((3, 4, 5, 9, 17))
    lower, upper = ([(x, y) for x in positions(random, many)] for y in positions(random, 2))
    return [[a, b, d, c] for a, b, c, d in zip(lower, lower[1:], upper, upper[1:])]


def slices(random):
    """Triangles round one corner that all of them have."""
    rim = ring(random, random.choice((3, 4, 5, 8, 16)))
    return [[(0.0, 0.0), a, b] for a, b in zip(rim, rim[1:] + rim[:1])]


def nested(random):
    """One zone in several sizes, at times in one of them twice."""
    corners = ring(random, random.randint(3, 7))
    return [[(x * size, y * size) for x, y in corners] for size in random.choices(SIZES, k=random.choice((1, 2, 3, 6)))]


def in_a_row(random):
    """Rectangles of one size, each a step from the one before: with gaps, edge to edge, overlapping, or all the same."""
    width, height = random.randint(1, 4), random.randint(1, 4)
    dx, dy = random.choice(((1, 0), (2, 0), (0, 1), (1, 1), (1, -2), (0, 0)))
    return [rectangle(k * dx, k * dy, k * dx + width, k * dy + height) for k in range(random.choice((2, 3, 4, 6, 16)))]


def tossed(random):
    """Corners of one small grid: zones that cross and touch each other and themselves, and some without an inside."""
    size = random.choice((1, 2, 4, 8))
    return [[grid_point(random, size) for _ in range(random.randint(3, 6))] for _ in range(random.choice((1, 2, 3, 6)))]


def repeated(random):
    """Another layout with one of its zones more than once."""
    zones = any_layout(random)
    return zones[:12] + [random.choice(zones)] * random.randint(1, 4)


def with_thin(random):
    """Another layout, and on an edge or a diagonal of its zones some without an inside."""
    zones = any_layout(random)
    few = [random.choices(random.choice(zones), k=2) for _ in range(random.randint(1, 3))]
    return zones[:12] + [random.choices(ends, k=random.randint(3, 5)) for ends in few]


LAYOUTS = (cells, cells, strips, slices, nested, nested, nested, in_a_row, in_a_row, tossed, repeated, with_thin)
