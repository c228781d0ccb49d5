"""Questions of the kind why: a room for the counted edges, a point and the corners of a zone."""

from questions import zone
from questions.doubles import any_number, float_of, moved, spelled_list
from questions.lines import INFINITY, ONE, with_damaged
from questions.points import REFUSED, either_zero, grid_point, patterns, replaced, scaled, with_refused

LARGEST_ROOM = 100
MOST_CORNERS = 64
ORIGIN = (0.0, 0.0)

# by turns below and above the origin, all on its right, so that all 64 edges count
ZIGZAG = [(index + 1.0, index % 2 * 2 - 1.0) for index in range(MOST_CORNERS)]
# each corner further out than the one before it and across the origin: it is gone round 31 times
WOUND = [(y * index, y) for index, (_, y) in enumerate(ZIGZAG)]

# each is asked with every room up to one more than it needs, and with the notable rooms
NOTABLE = [
    [(2.0, 2.0)] + zone.SQUARE,
    [(-1.0, 2.0)] + zone.SQUARE,
    [(-1.0, 2.0)] + zone.SQUARE * 2,
    [(5.0, 5.0)] + zone.SQUARE,
    [(4.0, 1.0)] + zone.SQUARE,
    [(4.0, 4.0)] + zone.SQUARE,
    [(-0.0, 0.0)] + zone.SQUARE,
    [(-1.0, 2.0)] + zone.SQUARE * 16,
    [(2.0, 2.0)] + zone.SQUARE * 16,
    [ORIGIN] + ZIGZAG,
    [ORIGIN] + ZIGZAG[::-1],
    [ORIGIN] + ZIGZAG[1:],
    [ORIGIN] + ZIGZAG + ZIGZAG[:1],
    [ORIGIN] + [(x, max(y, -0.0)) for x, y in ZIGZAG],  # the lower corners level with it: all count
    [ORIGIN] + [(x, min(y, -0.0)) for x, y in ZIGZAG],  # the upper ones: none counts
    [ORIGIN] + [(-x, y) for x, y in ZIGZAG],
    [ORIGIN] + WOUND,
    [ORIGIN] + WOUND[::-1],
    [ORIGIN] + [(-x, y) for x, y in WOUND],
    # the first edge that has the point has it between its ends, and a later one as an end; and the other way round
    [(2.0, 0.0), (0.0, 0.0), (4.0, 0.0), (4.0, 4.0), (2.0, 0.0), (0.0, 4.0)],
    [(2.0, 0.0), (2.0, 0.0), (0.0, 4.0), (0.0, 0.0), (4.0, 0.0), (4.0, 4.0)],
]
NOTABLE_ROOMS = (0, 1, 63, 64, 65, 99, 100, 101, 2**32 - 1)

UNCLEAR = (
    b"why", b"why ", b"why 0", b"why 64", b"why 0 ", b"why 64" + ONE, b"why 64" + INFINITY, b"why 101", b"why 101" + ONE,
    b"Why 64" + 8 * ONE, b"wh 64" + 8 * ONE, b"whys 64" + 8 * ONE, b"why64" + 8 * ONE, b"why" + 8 * ONE, b"why" + 9 * ONE,
    b"why" + 9 * b" 0000000000000000", b"why" + 9 * b" 0", b"why 0" + 8 * b" 0", b"why 00" + 8 * ONE, b"why 064" + 8 * ONE,
    b"why -1" + 8 * ONE, b"why +1" + 8 * ONE, b"why 1.0" + 8 * ONE, b"why x" + 8 * ONE, b"why 6 4" + 8 * ONE,
    b"why 101" + 8 * INFINITY, b"why 101" + 9 * ONE, b"why 1000" + 8 * ONE, b"why 4294967296" + 8 * ONE,
    b"why 10000000000000000000064" + 8 * ONE, b"why 64" + 8 * ONE + b" ", b"why 64 " + 8 * ONE, b"why  64" + 8 * ONE,
    b"why 64" + (8 * ONE)[:-1], b"why 64" + 8 * ONE + b"0", b"why 64" + 8 * ONE + b" x", b"why 64" + 8 * ONE + b" up",
    b"why 0" + 129 * INFINITY + b" x", b"why 0" + 130 * ONE + b" x", b"why 0" + 131 * ONE + b" x",
    b"why 0" + 132 * ONE + b" x", b"why 101" + 130 * ONE, b"why 101" + 132 * ONE, b"why 101" + 133 * ONE,
    b"why 64" + 999 * ONE + b" x",
)


def questions(random):
    return with_damaged(random, UNCLEAR, asked(random))


def asked(random):
    for notable in map(patterns, NOTABLE):
        for room in sorted({*NOTABLE_ROOMS, *range(entries(notable) + 2)}):
            yield line(random, room, notable)
    # 3 comes before 9, though no entry fits
    for place in range(4):
        for refused in REFUSED:
            yield line(random, 0, replaced(patterns(random.choice(NOTABLE)), place, refused))
    for accepted in zone.zones(random, SHAPES):
        for room in rooms(random, accepted):
            yield line(random, room, accepted)
        if random.randrange(16) == 0:
            yield line(random, random.choice((0, LARGEST_ROOM)), with_refused(random, accepted))


def line(random, room, coordinates):
    return b"why %d" % room + spelled_list(random, coordinates)


def rooms(random, coordinates):
    """For a small zone a room that its entries just fit or just do not, and another; for a large one either."""
    needed = entries(coordinates)
    just = min(random.choice((needed, needed, needed + 1, max(needed - 1, 0))), LARGEST_ROOM)
    other = random.choice((0, 0, 64, 100, random.randint(0, LARGEST_ROOM), random.choice((1, 63, 65, 101))))
    return (just, other) if len(coordinates) < 40 else (random.choice((just, just, other)),)


def entries(coordinates):
    """How many edges count, as well as doubles can tell: it only decides what room is lent."""
    numbers = [float_of(pattern) for pattern in coordinates]
    (x, y), *corners = zip(numbers[::2], numbers[1::2])
    return sum(passes(x, y, *ends) for ends in zip(corners, corners[1:] + corners[:1]))


def passes(x, y, start, end):
    (low_x, low), (high_x, high) = sorted((start, end), key=lambda corner: corner[1])
    return low <= y < high and low_x + (y - low) / (high - low) * (high_x - low_x) > x


# ---- more shapes than those of zones: lists of a point and the corners after it


def zigzag(random):
    """Corners by turns above the point and not above it, most of them on its right, so that many edges count."""
    x, y = grid_point(random, 4)
    on_left = random.choice((0, 0, 1, 8))  # of sixteen
    below, above = random.choice((((0,), (1,)), ((-1, -2), (1, 2)), ((-1, 0), (1, 2)), ((-1, -2), (0, 1))))
    corners = []
    for index in range(random.choice((64, 64, 63, 62, random.randint(3, 64)))):
        side = -1 if random.randrange(16) < on_left else 1
        corners.append((x + side * random.randint(1, 9), y + random.choice(above if index % 2 else below)))
    yield scaled(random, [(x, y)] + zone.in_any_turn(random, corners))


def wound(random):
    """Each corner far out from the one before it and across the point, so that it is gone round again and again."""
    x, y = grid_point(random, 4)
    corners = []
    for index in range(random.choice((64, 63, random.randint(3, 64)))):
        across = (-1) ** index
        corners.append((x + across * 4.0**index, y + across * random.choice((1, 2))))
    yield scaled(random, [(x, y)] + zone.in_any_turn(random, corners))


def fan(random):
    """Every edge goes past the point a few last places to its left or right, or through it."""
    point = random.choice((ORIGIN, (any_number(random, -3, 3), any_number(random, -3, 3))))
    most = random.choice((1, 3, 1000, 2**30))
    x, y = any_number(random, -2, 2), any_number(random, -2, 2)
    corners = []
    for _ in range(zone.corner_count(random)):
        corners.append((point[0] + x, point[1] + y))
        x, y = -moved(random, x, most), -moved(random, y, most)
    yield scaled(random, [point] + corners) if random.randrange(4) == 0 else [point] + corners


def at_corner(random):
    """A corner as the point, with zeros of either sign, and a point level with one corner and upright over another."""
    _, *corners = next(random.choice(zone.SHAPES)(random))
    for point in (random.choice(corners), (random.choice(corners)[0], random.choice(corners)[1])):
        yield either_zero(random, [point]) + corners


SHAPES = (zigzag, zigzag, wound, fan, fan, at_corner, at_corner)
