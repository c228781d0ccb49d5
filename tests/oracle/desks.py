"""01, 'Desk and viewer': the desk program's whole output; and that of the program why, which gives the places with their reasons."""

from doubles import coordinates
from reasons import counted_edges, is_end
from tracks import MOST_POINTS, patterns_of
from words import Refused
from zones import FEWEST_CORNERS, MOST_CORNERS, border_edge, place_in, times_round


def text_of(zone, releases):
    """What the desk prints for the bytes of its two files, of which an unreadable one is None."""
    return printed(zone, releases, lambda corners, point: place_in(corners, point)[0])


def reasons_of(zone, releases):
    """What the program why prints for the same."""
    return printed(zone, releases, reason_in)


def printed(zone, releases, said_in):
    """What is printed where each release's line has its number and what is said of it in the zone."""
    if zone is None:
        return "unreadable zone\n"
    try:
        corners = corners_of(zone)
    except Refused as refused:
        return "refused zone %d %d\n" % (refused.number, refused.place)
    if releases is None:
        return "unreadable releases\n"
    try:
        points = points_of(releases)
    except Refused as refused:
        return "refused releases %d %d\n" % (refused.number, refused.place)
    lines = ["releases %d" % len(points)]
    lines += ["%d %s" % (number, said_in(corners, point)) for number, point in enumerate(points, 1)]
    return "\n".join(lines) + "\n"


def reason_in(corners, point):
    """The place and its reason; the total is by quarter turns, not from the edges that are told with it."""
    edge = border_edge(corners, point)
    if edge is not None:
        return "border: edge %d, %s" % (edge, "at one of its corners" if is_end(corners, point, edge) else "between its corners")
    counted = ["edge %d %s" % (number, turn.decode("ascii")) for number, turn in counted_edges(corners, point)]
    total = times_round(corners, point)
    return "%s: %s, total %d" % ("outside" if total == 0 else "inside", ", ".join(counted or ["no edge counts"]), total)


def points_of(file):
    values = coordinates(patterns_of(file, 2 * MOST_POINTS))
    return list(zip(values[::2], values[1::2]))


def corners_of(file):
    corners = points_of(file)
    if len(corners) < FEWEST_CORNERS:
        raise Refused(4, 0)
    if len(corners) > MOST_CORNERS:
        raise Refused(1, 0)
    return corners
