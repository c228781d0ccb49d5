"""The zone: border, inside or outside, from the signs of exact determinants.

How often the border goes round a point is found by quarter turns, and compared with the rule's total.
"""

from doubles import coordinates
from promises import promise
from sides import exact_sign
from words import Refused, Unclear, read_doubles

FEWEST_CORNERS = 3
MOST_CORNERS = 64


def answer_zone(words):
    """zone D D D ...: the point, then the corners"""
    point, zone = read_zone(words)
    place, edge = place_in(zone, point)
    return b"zone border %d" % edge if place == "border" else b"zone " + place.encode("ascii")


def read_zone(words):
    """A point and a zone from the words of both, or the zone's refusal."""
    if len(words) < 2:
        raise Unclear
    return accepted_zone(read_doubles(words))


def accepted_zone(patterns):
    """The values of a point and of a zone's corners, from the patterns of both, or the zone's refusal."""
    corners, odd = divmod(len(patterns) - 2, 2)
    if odd:
        raise Refused(5, 0)
    if corners < FEWEST_CORNERS:
        raise Refused(4, 0)
    if corners > MOST_CORNERS:
        raise Refused(1, 0)
    values = coordinates(patterns)  # the point at places 0 and 1, corners from 2
    point, *zone = zip(values[::2], values[1::2])
    return point, zone


def place_in(zone, point):
    """The place of a point, and on the border its edge."""
    edge = border_edge(zone, point)
    if edge is not None:
        return "border", edge
    return ("outside" if times_round(zone, point) == 0 else "inside"), None


def edges(zone):
    """Each corner with the next one, and the last with the first."""
    return zip(zone, zone[1:] + zone[:1])


def border_edge(zone, point):
    """The first edge that the point lies on, or None."""
    for number, (start, end) in enumerate(edges(zone)):
        if is_between(start, point, end) and exact_sign(start, end, point) == 0:
            return number
    return None


def is_between(start, point, end):
    """Each coordinate is between those of the ends, ends included."""
    return all(min(s, e) <= p <= max(s, e) for s, p, e in zip(start, point, end))


def times_round(zone, point):
    """How often the border goes round a point that is not on it, counter-clockwise, by quarter turns."""
    quarters = sum(quarter_turns(start, end, point) for start, end in edges(zone))
    promise(quarters % 4 == 0, "a closed border goes round whole times")
    promise(quarters == 4 * total(zone, point), "the total is how often the border goes round the point")
    return quarters // 4


def quarter_turns(start, end, point):
    """How many quarters an edge goes on round the point, counter-clockwise: -2 to 2."""
    turned = (quarter(end, point) - quarter(start, point)) % 4
    if turned == 2:
        # to the quarter across: on which side it passes the point tells which way round
        return 2 * exact_sign(start, end, point)
    return -1 if turned == 3 else turned


def quarter(corner, point):
    """0 to 3, counter-clockwise; each has one of the two half-lines that bound it."""
    x, y = corner[0] - point[0], corner[1] - point[1]
    if x > 0 and y >= 0:
        return 0
    if x <= 0 and y > 0:
        return 1
    if x < 0:
        return 2
    return 3


def total(zone, point):
    """By the rule: edges that go up past the point on its right, less those that go down past it there."""
    y = point[1]
    ups = [edge for edge in edges(zone) if edge[0][1] <= y < edge[1][1] and exact_sign(*edge, point) == 1]
    downs = [edge for edge in edges(zone) if edge[1][1] <= y < edge[0][1] and exact_sign(*edge, point) == -1]
    return len(ups) - len(downs)
