"""Document 004, 'Revised ESSA': the published method, with its two heaps and its iterations.

Unlike sums.py it computes with the machine's own doubles, as 004 does, and it knows no slots.
The heaps are Python's, least first, so they hold the magnitudes negated.
"""

import struct
from heapq import heapify, heappop, heappush


def sign_and_iterations(patterns):
    """The sign of the sum of finite doubles, and how often the loop's body is run."""
    numbers = [struct.unpack(">d", pattern.to_bytes(8, "big"))[0] for pattern in patterns]
    positive = [-number for number in numbers if number > 0]
    negative = [number for number in numbers if number < 0]
    heapify(positive)
    heapify(negative)
    iterations = 0
    while True:
        sign = sign_by_domination(positive, negative)
        if sign is not None:
            return sign, iterations
        iterate(positive, negative)
        iterations += 1


def sign_by_domination(positive, negative):
    """004, 'termination criteria'; None while neither heap dominates."""
    m, n = len(positive), len(negative)
    if m == 0 and n == 0:
        return 0
    if m == 0:
        return -1
    if n == 0 or -positive[0] > n * -negative[0]:
        return 1
    if -negative[0] > m * -positive[0]:
        return -1
    return None


def iterate(positive, negative):
    """004, 'revised essa loop body': the two largest become x and y, which go where they belong."""
    a, b = -heappop(positive), -heappop(negative)
    x = a - b
    # Dekker's roundoff, each operation rounded
    y = (a - x) - b if x > 0 else a - (b + x)
    for number in (x, y):
        if number > 0:
            heappush(positive, -number)
        elif number < 0:
            heappush(negative, number)
