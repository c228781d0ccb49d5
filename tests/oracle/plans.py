"""02, No. 6, 'The whole crease, one bowler': a release in a plan, by two sets of zones.

Every zone is asked by itself, as the word zone asks it: for its refusal, and only when none is refused for its place.
The zones that have the release on their border are one set, those that have it inside are another, and the answer is
read off the two.
"""

from contextlib import contextmanager
from itertools import islice

from doubles import coordinates
from words import Refused, Unclear, read_count, read_doubles, read_room
from zones import accepted_zone, place_in

MOST_ZONES = 16
ROOM_FOR_COUNTS = 20  # of the protocol, as the next
ROOM_FOR_CORNERS = 2_212  # doubles, besides the point's two


def answer_plan(words):
    """plan N COUNT ... D D D ...: how many counts, the counts, the point, then the corners of all zones"""
    zones = accepted_plan(*read_plan(words))
    word, numbers = found([place_in(zone, point)[0] for point, zone in zones])
    return b" ".join([b"plan", word] + [b"%d" % number for number in numbers])


def read_plan(words):
    """The counts, and the patterns of the point and of the corners."""
    if not words:
        raise Unclear
    after_counts = 1 + read_room(words[0], ROOM_FOR_COUNTS)
    counts = [read_count(word) for word in words[1:after_counts]]
    patterns = read_doubles(words[after_counts:])  # none where a count is missing
    if not 2 <= len(patterns) <= 2 + ROOM_FOR_CORNERS:
        raise Unclear
    return counts, patterns[:2], patterns[2:]


def accepted_plan(counts, point, corners):
    """The values of the point with those of each zone's corners, or the plan's refusal."""
    if len(counts) > MOST_ZONES:
        raise Refused(1, 0, 0)
    if len(corners) != 2 * sum(counts):
        raise Refused(5, 0, 0)
    with refused_beside(0):
        coordinates(point)
    rest = iter(corners)
    zones = []
    for number, count in enumerate(counts):
        with refused_beside(number):
            zones.append(accepted_zone(point + [*islice(rest, 2 * count)]))
    return zones


@contextmanager
def refused_beside(zone):
    """A refusal from within has this zone's number beside its place."""
    try:
        yield
    except Refused as refusal:
        raise Refused(refusal.number, refusal.place, zone) from None


def found(places):
    """The answer's word, and the numbers of the zones that it names, from the places in all zones."""
    border, inside = ({zone for zone, at in enumerate(places) if at == place} for place in ("border", "inside"))
    if border:
        return b"border", [min(border)]
    return (b"none", b"alone", b"shared")[min(len(inside), 2)], sorted(inside)[:2]
