"""Leaves points of outlines out, the ones first whose triangle with their neighbours is least (Visvalingam).

A point goes only where its closed triangle holds no other point of the slice. So outlines stay simple and apart, and
one that lies in another stays in it. The standard library is enough.
"""
import heapq

Point = tuple[int, int]
Ring = list[Point]

FEWEST = 4  # points that each outline keeps


def side(a: Point, b: Point, c: Point) -> int:
    """Gives twice the area of a triangle, above 0 where it runs counterclockwise."""
    return (b[0] - a[0]) * (c[1] - a[1]) - (b[1] - a[1]) * (c[0] - a[0])


class Points:
    """The points of all outlines of a slice, each with the one before and the one after it, and a grid to find them.
    """

    def __init__(self, rings: list[Ring], cell: int):
        self.points = [point for ring in rings for point in ring]
        self.cell, self.grid = cell, {}
        self.before, self.behind, self.ring_of = [], [], []
        for number, ring in enumerate(rings):
            first, count = len(self.before), len(ring)
            self.before += [first + count - 1, *range(first, first + count - 1)]
            self.behind += [*range(first + 1, first + count), first]
            self.ring_of += [number] * count
        for at, (x, y) in enumerate(self.points):
            key = (x // cell, y // cell)
            if key in self.grid:
                self.grid[key].add(at)
            else:
                self.grid[key] = {at}

    def doubled(self, at: int) -> int:
        """Gives twice the area of the triangle of a point and its neighbours."""
        (ax, ay), (bx, by), (cx, cy) = self.points[self.before[at]], self.points[at], self.points[self.behind[at]]
        return abs((bx - ax) * (cy - ay) - (by - ay) * (cx - ax))

    def near(self, corners):
        """Gives the points in the cells of the grid that the box of some corners meets."""
        cell, grid = self.cell, self.grid
        xs, ys = [x for x, _ in corners], [y for _, y in corners]
        y_cells = range(min(ys) // cell, max(ys) // cell + 1)
        return [
            it for x in range(min(xs) // cell, max(xs) // cell + 1) for y in y_cells for it in grid.get((x, y), ())
        ]

    def is_free(self, at: int) -> bool:
        """Whether a point can go: no other point is in its closed triangle, or it lies between its neighbours."""
        before, behind, points = self.before[at], self.behind[at], self.points
        a, b, c = points[before], points[at], points[behind]
        doubled = side(a, b, c)
        if doubled == 0:
            return (b[0] - a[0]) * (c[0] - b[0]) + (b[1] - a[1]) * (c[1] - b[1]) > 0
        if doubled < 0:
            a, c = c, a
        own = (at, before, behind)
        for other in self.near((a, b, c)):
            if other not in own:
                p = points[other]
                if side(a, b, p) >= 0 and side(b, c, p) >= 0 and side(c, a, p) >= 0:
                    return False
        return True

    def leave_out(self, at: int) -> tuple[int, int]:
        """Takes a point out, and gives its neighbours."""
        a, c = self.before[at], self.behind[at]
        self.behind[a], self.before[c] = c, a
        x, y = self.points[at]
        self.grid[x // self.cell, y // self.cell].discard(at)
        self.ring_of[at] = None
        return a, c


def thinned(rings: list[Ring], least: float, most: int, cell: int) -> list[Ring]:
    """Gives the rings without points whose triangle has a doubled area below `least`, and with no more than `most`
    points each where that can be done. The grid's cells have this size.
    """
    points = Points(rings, cell)
    left = [len(ring) for ring in rings]
    heap, before, behind, ring_of = [], points.before, points.behind, points.ring_of

    def entries(places):
        """Gives the points of some places that may go, each with twice the area of its triangle and its neighbours."""
        for at in places:
            doubled = points.doubled(at)
            if doubled < least or left[ring_of[at]] > most:
                yield doubled, at, before[at], behind[at]

    heap += entries(range(len(points.points)))
    heapq.heapify(heap)
    while heap:
        doubled, at, a, c = heapq.heappop(heap)
        ring = ring_of[at]
        if ring is None or (before[at], behind[at]) != (a, c) or left[ring] <= FEWEST:
            continue
        if (doubled < least or left[ring] > most) and points.is_free(at):
            left[ring] -= 1
            for it in entries(points.leave_out(at)):
                heapq.heappush(heap, it)
    kept = [[] for _ in rings]
    for point, ring in zip(points.points, ring_of):
        if ring is not None:
            kept[ring].append(point)
    return kept
