"""02, No. 1, 'Which side of the stump plane': the sign of a determinant, by 24 products of three coordinates.

The order of the products and their signs are those of the permutations of the points, and each product
is opened by itself. The total of all summands is compared with the determinant by elimination.
"""

from itertools import combinations, permutations

from doubles import coordinates, pattern_of, sign_of
from promises import promise
from rounding import UNIT
from sides import exact_product
from sums import ceiling, run
from words import LARGEST_COUNT, Unclear, read_doubles

REACH = 300  # of coordinates: they are from 2^-300 to 2^300
MOST_STEPS = 4_416


def plane(points):
    """Sign and steps for four points, each x, y and height."""
    summands = [summand for factors in products(points) for summand in opened(*factors)]
    exact = determinant([[*point, 1] for point in points])
    # a summand is in units, and the determinant in cubes of units
    promise(sum(summands) << 2 * UNIT == exact, "the summands total to the determinant")
    sign, steps = run([pattern_of(summand) for summand in summands], LARGEST_COUNT)
    promise(sign == sign_of(exact), "the answer is the sign of the exact determinant")
    promise(steps <= ceiling(summands) <= MOST_STEPS, "the steps are at most the ceiling, and that at most 4,416")
    return sign, steps


def products(points):
    """The factors of all 24, in the order of the points that give x, then y, then height; a minus goes to x."""
    for order in permutations(range(4)):
        inversions = sum(before > after for before, after in combinations(order, 2))
        (x, _, _), (_, y, _), (_, _, height), _ = (points[index] for index in order)
        yield (-1) ** inversions * x, y, height


def opened(x, y, height):
    """x meets y, and then the height meets each of the two summands."""
    return [summand for part in exact_product(x, y) for summand in exact_product(part, height)]


def determinant(rows):
    """By Bareiss' elimination: each division leaves no remainder."""
    rows, divisor, swaps = [*rows], 1, 0
    while len(rows) > 1:
        first = next((index for index, row in enumerate(rows) if row[0]), None)
        if first is None:
            return 0
        rows[0], rows[first] = rows[first], rows[0]
        swaps += first != 0
        (pivot, *others), *rest = rows
        rows = [[(pivot * entry - row[0] * other) // divisor for entry, other in zip(row[1:], others)] for row in rest]
        divisor = pivot
    return (-1) ** swaps * rows[0][0]


def answer_plane(words):
    """plane D D D D D D D D D D D D: x, y and height of each point"""
    if len(words) != 12:
        raise Unclear
    values = coordinates(read_doubles(words), REACH)
    return b"plane %d %d" % plane(list(zip(values[::3], values[1::3], values[2::3])))
