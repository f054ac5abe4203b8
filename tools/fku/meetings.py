"""Where edges of whole-number rings meet that should not: exactly, as the program asks. The standard library is enough.

Neighbouring edges of a ring may share the point between them alone; all others of a section may share none.
"""
import math
from collections import defaultdict
from itertools import combinations

from fku.joining import box, segments_meet
from fku.thinning import Point, Ring, side

Edge = tuple[int, int]  # the number of a ring, and the number of the point where the edge begins


def is_back(a: Point, b: Point, c: Point) -> bool:
    """Whether the way from a to b turns right round towards c, so that the two edges share more than b."""
    return side(a, b, c) == 0 and (b[0] - a[0]) * (c[0] - b[0]) + (b[1] - a[1]) * (c[1] - b[1]) < 0


def slanted_cells(a: Point, b: Point, cell: int):
    """Gives the cells of a grid that an edge may pass, column by column."""
    (x0, y0), (x1, y1) = sorted((a, b))
    for column in range(x0 // cell, x1 // cell + 1):
        rows = (y0, y1)
        if x1 > x0:
            ends = (min(max(it, x0), x1) - x0 for it in (column * cell, (column + 1) * cell))
            rows = [y0 + (y1 - y0) * it / (x1 - x0) for it in ends]
        for row in range(math.floor(min(rows) - 1) // cell, math.ceil(max(rows) + 1) // cell + 1):
            yield column, row


def cells_of(a: Point, b: Point, cell: int):
    """Gives the cells of a grid that an edge may pass: those of its box, where these are few."""
    (ax, ay), (bx, by) = a, b
    left, right = (ax // cell, bx // cell) if ax < bx else (bx // cell, ax // cell)
    low, high = (ay // cell, by // cell) if ay < by else (by // cell, ay // cell)
    if left == right and low == high:
        return ((left, low),)
    if right - left > 2 and high - low > 2:
        return slanted_cells(a, b, cell)
    return [(column, row) for column in range(left, right + 1) for row in range(low, high + 1)]


def cell_for(rings: list[Ring]) -> int:
    """Gives the size of a grid's cells such that about one point falls into each."""
    xs, ys = [[point[axis] for ring in rings for point in ring] for axis in (0, 1)]
    return math.ceil(max(max(xs) - min(xs), max(ys) - min(ys)) / math.sqrt(len(xs))) + 1


def are_against(one: Edge, other: Edge, rings: list[Ring]) -> bool:
    """Whether two edges share a point that they should not; the lower one comes first."""
    ring, low = one
    a, b = rings[ring][low], rings[ring][(low + 1) % len(rings[ring])]
    other_ring, high = other
    c, d = rings[other_ring][high], rings[other_ring][(high + 1) % len(rings[other_ring])]
    if ring == other_ring:
        if high == low + 1:
            return is_back(a, b, d)
        if low == 0 and high == len(rings[ring]) - 1:
            return is_back(c, d, b)
    return segments_meet(a, b, c, d)


def near_pairs(rings: list[Ring]):
    """Gives the pairs of edges whose boxes meet, the lower one first, some of them more than once."""
    cell, cells = cell_for(rings), defaultdict(list)
    for number, ring in enumerate(rings):
        for at, (a, b) in enumerate(zip(ring, ring[1:] + ring[:1])):
            boxed = ((number, at), *box((a, b)))
            for place in cells_of(a, b, cell):
                cells[place].append(boxed)
    for inside in cells.values():
        for (one, left, right, low, high), (other, x0, x1, y0, y1) in combinations(inside, 2):
            if x0 <= right and left <= x1 and y0 <= high and low <= y1:
                yield one, other


def meetings(rings: list[Ring]) -> list[tuple[Edge, Edge]]:
    """Gives the pairs of edges, the lower one first, that share a point that they should not; each ring has three
    points or more, and none twice in a row.
    """
    return sorted({pair for pair in near_pairs(rings) if are_against(*pair, rings)}) if rings else []
