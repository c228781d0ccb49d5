"""Questions of the kind plan: corner counts, a release, and the corners of all zones."""

from itertools import chain, cycle, islice

from questions.doubles import spelled_list
from questions.layouts import MOST_CORNERS, MOST_ZONES, WAYS, largest, plans, rectangle
from questions.lines import INFINITY, ONE, damage, with_damaged
from questions.points import REFUSED, grid_point, patterns, replaced

ROOM_FOR_COUNTS = 20
ROOM_FOR_CORNERS = 2_212  # doubles, besides the release's two

ZERO, FOUR = b" 0000000000000000", b" 4010000000000000"
SQUARE = rectangle(0, 0, 6, 6)
AWAY = rectangle(20, 20, 24, 24)

# zones that are easily mixed up, each plan asked with every release of a grid around them
NOTABLE = [
    [SQUARE],
    [SQUARE, SQUARE],
    [AWAY, SQUARE, SQUARE[::-1], SQUARE[2:] + SQUARE[:2]],
    [rectangle(x, y, x + 2, y + 2) for y in (0, 2, 4) for x in (0, 2, 4)],
    [AWAY] * 3 + [rectangle(0, 0, 3, 6)] + [AWAY] * 3 + [rectangle(3, 0, 6, 6)],  # zones 3 and 7 share a line
    [SQUARE, rectangle(1, 1, 5, 5), rectangle(2, 2, 4, 4)],
    [rectangle(2, 2, 4, 4), rectangle(1, 1, 5, 5), SQUARE],
    [rectangle(0, 0, 4, 4), rectangle(2, 2, 6, 6), rectangle(2, 0, 6, 4), rectangle(0, 2, 4, 6)],
    [SQUARE, [(1.0, 1.0), (5.0, 5.0), (3.0, 3.0)], [(4.0, 3.0)] * 3],  # the others without an inside
    [[(0.0, 0.0), (6.0, 0.0), (0.0, 6.0)], [(0.0, 6.0), (6.0, 0.0), (6.0, 6.0)]],
    [[(0.0, 0.0), (4.0, 0.0), (0.0, 4.0)], [(4.0, 0.0), (0.0, 0.0), (4.0, 4.0)]],  # on one side of their line
    [SQUARE * 2, SQUARE + SQUARE[::-1], [(0.0, 0.0), (6.0, 6.0), (6.0, 0.0), (0.0, 6.0)]],
]

# counts, and the doubles of corners that a sum would expect which loses what is above 2^31, 2^32 or a smaller power
WRAPPED = [
    ([2**31], 0), ([2**31], 6), ([2**31 + 3], 6), ([2**31] * 2, 0), ([2**31 + 3, 2**31 + 3], 12), ([2**32 - 1], 0),
    ([2**32 - 1, 1], 0), ([1, 2**32 - 1], 0), ([2**32 - 1, 4], 6), ([4, 2**32 - 1], 6), ([3, 2**32 - 1], 4),
    ([3, 2**31], 6), ([2**28] * 16, 0), ([2**28 + 3] * 16, 96), ([2**27] * 16, 0), ([2**27 + 3] * 16, 96),
    ([2**32 - 1] * 16, 0), ([2**32 - 1] * 17, 0), ([2**32 - 1] * 20, 0), ([2**30 + 3] * 4, 24), ([2**8 + 3], 6),
    ([2**16 + 3], 6), ([2**15 + 3], 6), ([128, 131], 6), ([3, 2**24], 6), ([2**31 - 1, 2**31 - 1, 5], 6),
    ([3] * 15 + [2**31 + 3], 96), ([2**31 + 3] + [3] * 15, 96),
]

# each is unclear before a release and three corners
WRONG_HEADS = (
    b"plan", b"plan ", b"plan 1", b"plan 2 3", b"plan 1 3 3", b"plan 0 3", b"plan 3 3 3", b"plan 1 3 ", b"plan 1  3",
    b"plan  1 3", b" plan 1 3", b"Plan 1 3", b"pla 1 3", b"plans 1 3", b"plane 1 3", b"plain 1 3", b"plan1 3", b"plan 13",
    b"plan 01 3", b"plan -1 3", b"plan +1 3", b"plan 1.0 3", b"plan x 3", b"plan 1 03", b"plan 1 -3", b"plan 1 +3",
    b"plan 1 3.0", b"plan 1 x", b"plan 1 4294967296", b"plan 1 4294967299", b"plan 1 18446744073709551619",
    b"plan 1 0000000000000003", b"plan 4294967295", b"plan 4294967297 3", b"plan 18446744073709551617 3", b"plan 21",
    b"plan 21" + 21 * b" 0", b"plan 21" + 20 * b" 0", b"plan 21 3" + 20 * b" 0", b"plan 20" + 19 * b" 0",
    b"plan 20" + 21 * b" 0", b"plan 16" + 17 * b" 0", b"plan 100" + 100 * b" 0",
)

UNCLEAR = tuple(wrong + 8 * ONE for wrong in WRONG_HEADS) + (
    b"plan", b"plan ", b"plan 0", b"plan 0 ", b"plan 1", b"plan 1 3", b"plan 0 0 0", b"plan 0" + ONE, b"plan 1 3" + ONE,
    b"plan 0" + INFINITY, b"plan 00" + 2 * ONE, b"plan 1 00" + 2 * ONE, b"plan 1 3" + 8 * b" 0",
    b"plan 1 3" + (8 * ONE)[:-1], *(b"plan 1 3" + 8 * ONE + more for more in (b" ", b"0", b" x", b" 3")),
    b"plan 1 4" + 8 * INFINITY + b" x", b"plan 17" + 17 * b" 3" + 8 * ONE + b" x",
    b"plan 17" + 16 * b" 3" + b" x" + 2 * ONE, b"plan 21" + 21 * b" 3" + 128 * INFINITY,
    b"plan 1 1106" + 2214 * ONE + b" x", b"plan 1 1107" + 2215 * ONE + b" x", b"plan 0" + 2215 * ONE,
    b"plan 0" + 2216 * INFINITY,
)

# one after each unclear line, which shows that nothing of it is held any more; the triangle has the release inside
TRIANGLE = 2 * ONE + 2 * ZERO + FOUR + 2 * ZERO + FOUR
CLEAR = (
    b"plan 0" + 2 * ONE, b"plan 1 3" + 8 * ONE, b"plan 1 3" + TRIANGLE, b"plan 2 3 0" + TRIANGLE, b"plan 1 4" + TRIANGLE,
)


def questions(random):
    return with_damaged(random, chain(*zip(UNCLEAR, cycle(CLEAR))), asked(random))


def asked(random):
    for zones in NOTABLE:
        for x in range(-1, 8):
            for y in range(-1, 8):
                points = [(float(x), float(y))] + [corner for own in zones for corner in own]
                yield line(random, [len(own) for own in zones], patterns(points))
    for refused in (of_every_number, of_every_length, with_every_refusal, with_wrapped_counts, at_the_rooms):
        for counts, coordinates in refused(random):
            yield line(random, counts, coordinates)
    for counts, points in plans(random, WAYS):
        coordinates = patterns(points)
        yield line(random, counts, coordinates)
        if random.randrange(4) == 0:
            yield line(random, *with_faults(random, counts, coordinates))
        if random.randrange(64) == 0:
            yield damage(random, head(counts)) + spelled_list(random, coordinates)


def line(random, counts, coordinates):
    return head(counts) + spelled_list(random, coordinates)


def head(counts):
    return b" ".join([b"plan", b"%d" % len(counts)] + [b"%d" % count for count in counts])


def any_corners(random, count):
    return patterns([grid_point(random, 4) for _ in range(count)])


# ---- plans that are always asked: counts and coordinates, of which most are refused


def of_every_number(random):
    """No zone to more than are held, each with its corners or without any; and with too few or too many doubles."""
    for many in range(ROOM_FOR_COUNTS + 2):
        for count in (0, 3):
            yield [count] * many, any_corners(random, 1 + count * many)
        for doubles in (0, 6 * many - 2, 6 * many - 1, 6 * many + 1, 6 * many + 2):
            yield [3] * many, any_corners(random, 2 + 3 * many)[: 2 + max(doubles, 0)]
        yield with_bad_coordinate(random, [3] * many, any_corners(random, 1 + 3 * many))


def of_every_length(random):
    """A zone of few or of many corners in every place among triangles, of which the first may have the release."""
    for index in range(MOST_ZONES):
        for count in (0, 1, 2, MOST_CORNERS, MOST_CORNERS + 1):
            for release in ((0.0, 0.0), (-9.0, 9.0)):
                coordinates = patterns([release] + SQUARE[:3]) + any_corners(random, 3 * (MOST_ZONES - 2))
                yield with_zone([3] * (MOST_ZONES - 1), coordinates, index, any_corners(random, count))


def with_every_refusal(random):
    """With every refused coordinate in every place of a few zones, and with any of them in every place of many."""
    few = patterns([(3.0, 0.0)] + SQUARE[1:] + SQUARE + AWAY[1:])
    for place in range(len(few)):
        for refused in REFUSED:
            yield [3, 4, 3], replaced(few, place, refused)
    many = any_corners(random, 1 + 3 * MOST_ZONES)
    for place in range(len(many)):
        yield [3] * MOST_ZONES, replaced(many, place, random.choice(REFUSED))


def with_wrapped_counts(random):
    for counts, doubles in WRAPPED:
        coordinates = any_corners(random, 1 + doubles // 2)
        yield counts, coordinates
        yield with_bad_coordinate(random, counts, coordinates)


def at_the_rooms(random):
    """The largest plans; and as many doubles as are held, or two fewer to two more, in one zone, several or too many."""
    for counts, points in islice(plans(random, (largest,)), 4):
        yield counts, patterns(points)
        yield with_bad_coordinate(random, counts, patterns(points))
    for doubles in range(ROOM_FOR_CORNERS - 2, ROOM_FOR_CORNERS + 3):
        for many in (1, MOST_ZONES, MOST_ZONES + 1, ROOM_FOR_COUNTS, ROOM_FOR_COUNTS + 1):
            counts = [min(doubles // 2 // many, MOST_CORNERS)] * (many - 1)
            yield counts + [doubles // 2 - sum(counts)], any_corners(random, 1 + ROOM_FOR_CORNERS)[: 2 + doubles]


# ---- faults: each takes counts and coordinates, and gives others; not all are refused


def with_faults(random, counts, coordinates):
    """One fault, or a few at once."""
    for fault in random.choices(FAULTS, k=random.choice((1, 1, 2, 2, 3))):
        counts, coordinates = fault(random, counts or [0], coordinates)
    return counts, coordinates


def miscounted(random, counts, coordinates):
    """A count that is one more or fewer, or any."""
    index = random.randrange(len(counts))
    other = random.choice((counts[index] + 1, max(counts[index] - 1, 0), random.randrange(2**32)))
    return replaced(counts, index, other), coordinates


def parted_elsewhere(random, counts, coordinates):
    """Some corners of one zone counted to another, so that there are as many in all."""
    one, other = random.randrange(len(counts)), random.randrange(len(counts))
    some = random.choice((min(counts[one], 1), random.randint(0, counts[one])))
    fewer = replaced(counts, one, counts[one] - some)
    return replaced(fewer, other, fewer[other] + some), coordinates


def wrapped(random, counts, coordinates):
    """Counts with powers of two added, so that only their last bits fit the list, or those of their sum."""
    added = random.choice(([2**31], [2**31] * 2, [2**30] * 4, [2**28] * 16, [2**16], [2**8]))
    added = added[: len(counts)] + [0] * (len(counts) - len(added))
    return [count + more for count, more in zip(counts, random.sample(added, len(added)))], coordinates


def relisted(random, counts, coordinates):
    """One or two doubles at the end more or fewer."""
    some = random.choice((1, 2))
    return counts, random.choice((coordinates + coordinates[-some:], coordinates[: max(len(coordinates) - some, 2)]))


def with_odd_zone(random, counts, coordinates):
    """A zone more, of too few, of the most or of too many corners."""
    count = random.choices((0, 1, 2, MOST_CORNERS, MOST_CORNERS + 1), (3, 3, 3, 1, 1))[0]
    return with_zone(counts, coordinates, random.randint(0, len(counts)), any_corners(random, count))


def with_zone(counts, coordinates, index, corners):
    """One zone more, that has this number."""
    at = 2 + 2 * sum(counts[:index])
    return counts[:index] + [len(corners) // 2] + counts[index:], coordinates[:at] + corners + coordinates[at:]


def with_bad_coordinate(random, counts, coordinates):
    """A refused coordinate of the release, of the first zone, of any, or of the last."""
    length = len(coordinates)
    first, end = random.choice(((0, 2), (2, 8), (0, length), (length - 6, length)))
    place = min(max(random.randrange(first, end), 0), length - 1)
    return counts, replaced(coordinates, place, random.choice(REFUSED))


def crowded(random, counts, coordinates):
    """More zones than a plan may have, and at times than are held; those that are added have three corners or none."""
    more = max(random.choice((17, 17, 18, 20, 21)) - len(counts), 0)
    count = random.choice((0, 3))
    return counts + [count] * more, coordinates + any_corners(random, count * more)


FAULTS = (
    2 * (miscounted, parted_elsewhere, relisted) + 3 * (with_odd_zone,) + 4 * (with_bad_coordinate,) + (wrapped, crowded)
)
