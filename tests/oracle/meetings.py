"""02, No. 2, 'Did the path cross the line': the places that two pieces share, by elimination in fractions.

A place of the path is a share t of the way from its start to its end, and one of the crease a share s. They are
one place where two equations hold, one for each axis. The first gives t for every s; with it the second gives
one s, or none, or leaves s open. No determinant is asked for its sign, and no box is compared.
"""

from fractions import Fraction

from doubles import coordinates
from words import Unclear, read_doubles


def meet(path, crease):
    """How two pieces meet, each two points."""
    places = outermost(path, crease)
    if not places:
        return b"apart"
    if len(places) > 1:
        return b"overlapping"
    return b"touching" if places <= {*path, *crease} else b"crossing"


def outermost(path, crease):
    """The first and the last place that two pieces share: a set of none, of one that is both, or of two."""
    if is_point(path):
        path, crease = crease, path
    if is_point(path):
        return {*path} & {*crease}
    start, end = path
    return {tuple(a + t * (b - a) for a, b in zip(start, end)) for t in shares(path, crease)}


def is_point(piece):
    start, end = piece
    return start == end


def shares(path, crease):
    """The t of the first and of the last shared place, for a path that is no point."""
    # a + t (b - a) = c + s (d - c), that is t u = s v + w; of the two, one that tells t comes first
    equations = [(b - a, d - c, c - a) for a, b, c, d in zip(*path, *crease)]
    (u, v, w), (other_u, other_v, other_w) = sorted(equations, key=lambda equation: equation[0] == 0)
    # t = at + s rate, and with it the second is s factor = rest
    at, rate = Fraction(w, u), Fraction(v, u)
    factor, rest = rate * other_u - other_v, other_w - at * other_u
    if factor:
        s = rest / factor
        t = at + s * rate
        return {t} if 0 <= s <= 1 and 0 <= t <= 1 else set()
    if rest:
        return set()
    # any s will do: on the path's line the crease goes from at to at + rate
    first, last = max(0, min(at, at + rate)), min(1, max(at, at + rate))
    return {first, last} if first <= last else set()


def answer_meet(words):
    """meet D D D D D D D D: the path's two points, then the crease's"""
    if len(words) != 8:
        raise Unclear
    values = coordinates(read_doubles(words))
    points = list(zip(values[::2], values[1::2]))
    return b"meet " + meet(points[:2], points[2:])
