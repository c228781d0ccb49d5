"""02, No. 5, 'Tell me why he is outside': the edges that count, by the exact places where they pass the point's height.

How far up an edge the point's height is, is a fraction, and so is the x of the edge there. No determinant is asked
for its sign. The total is not counted from these edges: it is taken by quarter turns round the point, so that
tests/compare shows it if the two differ.
"""

from fractions import Fraction

from words import Refused, Unclear, read_room
from zones import border_edge, edges, read_zone, times_round

LARGEST_ROOM = 100  # of the protocol


def answer_why(words):
    """why ROOM D D D ...: the entries lent, the point, then the corners"""
    if not words:
        raise Unclear
    room = read_room(words[0], LARGEST_ROOM)
    point, zone = read_zone(words[1:])
    border = border_edge(zone, point)
    return b"why " + (reason_off_border(zone, point, room) if border is None else reason_on_border(zone, point, border))


def reason_on_border(zone, point, number):
    """The edge, and whether the point is an end of it; that needs no room."""
    return b"border %d %s" % (number, b"corner" if is_end(zone, point, number) else b"between")


def is_end(zone, point, number):
    """The point is one of the two corners of this edge."""
    return point in [*edges(zone)][number]


def reason_off_border(zone, point, room):
    """The place, the total and the counted edges, if there is room for these."""
    entries = counted_edges(zone, point)
    if len(entries) > room:
        raise Refused(9, 0)
    total = times_round(zone, point)
    place = b"outside" if total == 0 else b"inside"
    return b" ".join([place, b"%d" % total] + [b"%d %s" % entry for entry in entries])


def counted_edges(zone, point):
    """Number and turn of every edge that passes the point's height on its right, in order."""
    return [(number, turn(*ends)) for number, ends in enumerate(edges(zone)) if passes_on_right(ends, point)]


def turn(start, end):
    return b"up" if height(start) < height(end) else b"down"


def height(point):
    return point[1]


def passes_on_right(ends, point):
    """The edge is at the point's height somewhere to the right of it, and not there with its upper end."""
    lower, upper = sorted(ends, key=height)
    rise = height(upper) - height(lower)
    if rise == 0:
        return False  # a level edge passes no height
    share = Fraction(height(point) - height(lower), rise)
    return 0 <= share < 1 and lower[0] + share * (upper[0] - lower[0]) > point[0]
