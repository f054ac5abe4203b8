"""Outlines of a region of a slice, in integers, by marching squares. It needs numpy.

Every point lies strictly inside an edge of the grid, with at most one on each edge, and a cell whose two opposite
corners alone are inside parts them. So each outline is simple, and no two outlines of a slice share a point.
"""
import math

from fku.thinning import Ring

# For each of the 16 cells the segments through it, each from an edge to an edge with the inside on its left. The
# corners are 1 (low x, low y), 2 (high x, low y), 4 (high, high) and 8 (low x, high y); the edges are 0 low y,
# 1 high x, 2 high y, 3 low x.
SEGMENTS = {
    1: [(0, 3)], 2: [(1, 0)], 4: [(2, 1)], 8: [(3, 2)], 3: [(1, 3)], 6: [(2, 0)], 12: [(3, 1)], 9: [(0, 2)],
    7: [(2, 3)], 14: [(3, 0)], 13: [(0, 1)], 11: [(1, 2)], 5: [(0, 3), (2, 1)], 10: [(1, 0), (3, 2)],
}  # fmt: skip

NOTHING = [(0, 0)]
TABLE = [(SEGMENTS.get(cell, NOTHING)[0], SEGMENTS.get(cell, NOTHING)[-1]) for cell in range(16)]  # the first, the last


def places(count: int, step: float) -> list[int]:
    """Gives the whole places of the centres of so many voxels, and of one more before and after them."""
    return [math.floor(at * step + 0.5) for at in range(-1, count + 1)]


def cuts(a, b, level: float, low, high, margin: int):
    """Gives the whole places, at least a margin away from two others, where values come from a at low to b at high past
    a level; all are arrays. Where a value is none, as outside the volume, it is the middle.
    """
    import numpy

    with numpy.errstate(all="ignore"):
        rise = b - a
        part = numpy.where(numpy.isfinite(rise), (level - a) / rise, 0.5)
        found = low + numpy.floor((high - low) * part + 0.5).astype(numpy.int64)
    return numpy.minimum(numpy.maximum(found, low + margin), high - margin)


def segments(inside):
    """Gives the segments of all cells, cell by cell, as the numbers of the edges of the grid where they begin and end.
    The edge from the place y, x along x has the number y * width + x, and that along y as many more as there are
    places.
    """
    import numpy

    height, width = inside.shape
    code = inside[:-1, :-1] * 1 + inside[:-1, 1:] * 2 + inside[1:, 1:] * 4 + inside[1:, :-1] * 8
    ys, xs = ((code > 0) & (code < 15)).nonzero()
    kinds = code[ys, xs]
    counts = numpy.where((kinds == 5) | (kinds == 10), 2, 1)
    cells = numpy.repeat(numpy.arange(len(kinds)), counts)
    second = numpy.zeros(len(cells), dtype=int)
    second[1:] = cells[1:] == cells[:-1]
    edges = numpy.array(TABLE)[kinds[cells], second]
    first = ys[cells] * width + xs[cells]
    shifts = numpy.array([0, height * width + 1, width, height * width])
    return first + shifts[edges[:, 0]], first + shifts[edges[:, 1]]


def rings_of(after: list[int]) -> list[list[int]]:
    """Gives the rings that the places of a list make, each with the place of the next one, in the order of their first
    places.
    """
    rings, left = [], bytearray(b"\1") * len(after)
    start = left.find(1)
    while start >= 0:
        ring, at = [start], after[start]
        left[start] = 0
        while at != start:
            ring.append(at)
            left[at] = 0
            at = after[at]
        rings.append(ring)
        start = left.find(1, start)
    return rings


def points_on(edges, values, level, xs, ys, margin):
    """Gives x and y of the point on each of some edges of the grid."""
    import numpy

    along_y, at = numpy.divmod(edges, values.size)
    y, x = numpy.divmod(at, values.shape[1])
    a, b = values[y, x], values[y + along_y, x + 1 - along_y]
    xs, ys = numpy.array(xs, dtype=numpy.int64), numpy.array(ys, dtype=numpy.int64)
    low, high = numpy.where(along_y, ys[y], xs[x]), numpy.where(along_y, ys[y + along_y], xs[x + 1 - along_y])
    found = cuts(a, b, level, low, high, margin)
    return numpy.where(along_y, xs[x], found), numpy.where(along_y, found, ys[y])


def outlines(values, level: float, xs: list[int], ys: list[int], margin: int = 1) -> list[Ring]:
    """Gives the outlines of the region where values[y, x] are at least a level: counterclockwise round it, clockwise
    round its holes. The places xs and ys begin one before the first value and end one after the last; they are at
    least 2 margins apart, and no point comes nearer to a place than a margin. A region that reaches the border ends
    half a voxel outside it.
    """
    import numpy

    values = numpy.pad(values.astype(numpy.float64), 1, constant_values=numpy.nan)
    with numpy.errstate(invalid="ignore"):
        begin, end = segments(values >= level)
    after = numpy.empty(2 * values.size, dtype=numpy.int64)
    after[begin] = numpy.arange(len(begin))
    px, py = points_on(begin, values, level, xs, ys, margin)
    points = list(zip(px.tolist(), py.tolist()))
    return [[points[it] for it in ring] for ring in rings_of(after[end].tolist())]


def doubled_area(ring: Ring) -> int:
    """Gives twice the area of a ring, above 0 where it runs counterclockwise."""
    return sum(a[0] * b[1] - b[0] * a[1] for a, b in zip(ring, ring[1:] + ring[:1]))
