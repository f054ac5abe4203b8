"""Makes a closed surface a manifold, where each edge has two triangles, by splitting vertices; and leaves flat pieces
out.

A surface of fku is closed: each directed edge is in as many triangles as its reverse. At a bridge, and inside a cap
that lies on another one, an edge has four triangles and not two. Then the triangles on either side of it are matched in
pairs, so that the surface goes on from one to the other, and vertices that the surface passes twice become two at one
place. The standard library is enough.
"""
from collections import Counter, defaultdict

from fku.byu import Mesh
from fku.progress import Progress
from fku.trouble import Trouble

MOST_ROUNDS = 20  # through all edges with several pairs; two or three are enough for surfaces of fku


class Sets:
    """Sets of the numbers below a count, which can be joined."""

    def __init__(self, count: int):
        self.up = list(range(count))

    def find(self, at: int) -> int:
        """Gives the number that stands for the set of a number."""
        up = self.up
        while up[at] != at:
            up[at] = up[up[at]]
            at = up[at]
        return at

    def join(self, a: int, b: int) -> None:
        """Makes one set of those of two numbers."""
        self.up[self.find(a)] = self.find(b)


def after(half: int) -> int:
    """Gives the next half-edge of a triangle; half-edge 3 t + k leads from corner k of triangle t to its next corner,
    and has the number of the corner where it begins.
    """
    return half + 1 if half % 3 < 2 else half - 2


def cycle_of(permutation: list[int]) -> list[int]:
    """Gives for each place the number of the cycle of a permutation that it is in."""
    found = [-1] * len(permutation)
    for start in range(len(permutation)):
        at = start
        while found[at] < 0:
            found[at], at = start, permutation[at]
    return found


def rating(matched, round_start, round_end):
    """Gives how good it is to match half-edge i that leads forth with half-edge matched[i] that leads back: how many
    fans are closed then at both ends, and, below 0, how often a pair of edges has the same fan at both ends. The fan at
    the start leads from i forth to round_start[i] back, that at the end from j back to round_end[j] forth.
    """
    count = range(len(matched))
    undone = [0] * len(matched)
    for i in count:
        undone[matched[i]] = i
    starts, ends = cycle_of([undone[round_start[i]] for i in count]), cycle_of([round_end[matched[i]] for i in count])
    same = sum(it - 1 for it in Counter(zip(starts, ends)).values())
    return len(set(starts)) + len(set(ends)), -same


class Surface:
    """Triangles of a closed part, whose half-edges are matched in pairs. The numbers of its points are changed, and
    points are added, until each edge has two triangles.
    """

    def __init__(self, points, triangles):
        self.points = list(points)
        self.triangles = [list(it) for it in triangles if len(set(it)) == 3]
        self.mates = [-1] * (3 * len(self.triangles))  # the half-edge back that each half-edge is matched with
        choices = self.match()
        for _ in range(MOST_ROUNDS):
            if not sum(self.rematch(*it) for it in choices):
                break
        self.renumber()

    def half_edges(self):
        """Gives the first half-edge from each point to each other one, and the further ones where there are several, by
        the number of the one point times that of all points, and the number of the other.
        """
        first, more, count = {}, defaultdict(list), len(self.points)
        for at, (a, b, c) in enumerate(Progress("edges of triangles", len(self.triangles)).over(self.triangles)):
            for half, edge in ((3 * at, a * count + b), (3 * at + 1, b * count + c), (3 * at + 2, c * count + a)):
                if edge in first:
                    more[edge].append(half)
                else:
                    first[edge] = half
        return first, more

    def match(self):
        """Matches each half-edge with one that leads back, and gives those for which there is a choice: those of an
        edge forth and back.
        """
        (first, more), choices, count = self.half_edges(), [], len(self.points)
        for edge, half in first.items():
            a, b = divmod(edge, count)
            reverse = b * count + a
            if reverse not in first or len(more.get(edge, ())) != len(more.get(reverse, ())):
                raise Trouble("the surface is not closed, so it cannot be made a manifold")
            self.mates[half] = first[reverse]
            if a < b and edge in more:
                choices.append(([half, *more[edge]], [first[reverse], *more[reverse]]))
                self.mate(*choices[-1])
        return choices

    def mate(self, forth, back):
        """Matches half-edges: the surface goes on from a triangle to the other over them."""
        for one, other in zip(forth, back):
            self.mates[one], self.mates[other] = other, one

    def fan_end(self, half, open_edges):
        """Gives the half-edge into a point where the fan ends that begins with a half-edge out of it."""
        while True:
            half = after(after(half))
            if half in open_edges:
                return half
            half = self.mates[half]

    def rematch(self, forth, back) -> bool:
        """Matches the half-edges of an edge anew, where that closes more fans, and says whether it did."""
        open_edges = {*forth, *back}
        round_start = [back.index(self.fan_end(it, open_edges)) for it in forth]
        round_end = [forth.index(self.fan_end(it, open_edges)) for it in back]
        now = [back.index(self.mates[it]) for it in forth]
        inverse = [round_end.index(it) for it in range(len(forth))]
        best = max((now, round_start, inverse), key=lambda it: rating(it, round_start, round_end))
        self.mate(forth, [back[it] for it in best])
        return rating(best, round_start, round_end) > rating(now, round_start, round_end)

    def renumber(self):
        """Gives each fan, the triangles round a point one after another, a point of its own; the first fan of a point
        keeps it.
        """
        mates, left, seen = self.mates, bytearray(b"\1") * len(self.mates), bytearray(len(self.points))
        for start in Progress("corners of triangles", len(mates)).over(range(len(mates))):
            if not left[start]:
                continue
            number = self.triangles[start // 3][start % 3]
            if seen[number]:
                self.points.append(self.points[number])
                number = len(self.points) - 1
            else:
                seen[number] = 1
            half = start
            while left[half]:
                left[half] = 0
                self.triangles[half // 3][half % 3] = number
                half = mates[half - 1 if half % 3 else half + 2]

    def halve(self, half: int) -> int:
        """Parts the triangle of a half-edge by the last point, which lies on it, and gives the number of the
        half-edge's second half; the first one keeps its number.
        """
        at, k = divmod(half, 3)
        new, last = list(self.triangles[at]), len(self.points) - 1
        new[k], self.triangles[at][(k + 1) % 3] = last, last
        second = 3 * len(self.triangles) + k
        self.triangles.append(new)
        self.mates += [-1] * 3
        inner = after(half)
        outer = self.mates[inner]
        self.mates[after(second)], self.mates[outer] = outer, after(second)
        self.mates[inner], self.mates[after(after(second))] = after(after(second)), inner
        return second

    def add_point(self, half: int) -> None:
        """Puts a point into the middle of an edge, and parts both of its triangles there."""
        other, (at, k) = self.mates[half], divmod(half, 3)
        ends = [self.points[self.triangles[at][it]] for it in (k, (k + 1) % 3)]
        sums = [a + b for a, b in zip(*ends)]
        self.points.append(tuple(it // 2 if it % 2 == 0 else it / 2 for it in sums))
        for one, reverse in ((self.halve(half), other), (self.halve(other), half)):
            self.mates[one], self.mates[reverse] = reverse, one

    def part_edges(self) -> int:
        """Puts points into edges between two points that have more edges between them, till each pair has one. It gives
        how many points were added.
        """
        count = len(self.points)
        again = True
        while again:
            again, touched = False, set()
            for halves in self.half_edges()[1].values():
                for half in halves:
                    around = {half // 3, self.mates[half] // 3}
                    again = True
                    if not around & touched:
                        touched |= around
                        self.add_point(half)
        return len(self.points) - count


def split_vertices(mesh: Mesh) -> tuple[Mesh, int, int]:
    """Gives a closed mesh where each directed edge is in one triangle, as its reverse is: the same triangles at the
    same places. It gives too how many vertices were split off, and how many were put into the middle of edges, where
    nothing else helps; there a triangle becomes two. A triangle that names a point twice goes.
    """
    points, parts, split, added = [], [], 0, 0
    for number in range(1, len(mesh.parts) + 1):
        part = mesh.part(number)
        surface = Surface(part.points, part.triangles())
        split += len(surface.points) - len(part.points)
        added += surface.part_edges()
        parts.append([tuple(place + len(points) for place in triangle) for triangle in surface.triangles])
        points += surface.points
    return Mesh(points, parts, mesh.names), split, added


def pieces(triangles):
    """Gives the triangles of each piece: those that hang together by their points."""
    sets = Sets(1 + max((max(it) for it in triangles), default=-1))
    for a, b, c in triangles:
        sets.join(a, b)
        sets.join(b, c)
    found = defaultdict(list)
    for triangle in triangles:
        found[sets.find(triangle[0])].append(triangle)
    return list(found.values())


def normal(a, b, c):
    """Gives the vector across a triangle, as long as twice its area."""
    u, v = [q - p for p, q in zip(a, b)], [q - p for p, q in zip(a, c)]
    return u[1] * v[2] - u[2] * v[1], u[2] * v[0] - u[0] * v[2], u[0] * v[1] - u[1] * v[0]


def is_flat(points, triangles) -> bool:
    """Whether all points of some triangles lie in one plane."""
    normals = (normal(*(points[it] for it in triangle)) for triangle in triangles)
    across = next((it for it in normals if any(it)), None)
    if across is None:
        return True
    heights = {sum(a * b for a, b in zip(across, points[it])) for triangle in triangles for it in triangle}
    return len(heights) == 1


def without_flat(mesh: Mesh) -> tuple[Mesh, int, int]:
    """Gives the mesh without the pieces that lie in one plane, such as the two caps of an outline that is joined to
    nothing; how many these were, and how many triangles they had. Points that no triangle has any more go, and so do
    parts that have none left.
    """
    kept, flat = [], []
    for part in mesh.parts:
        found = [(is_flat(mesh.points, it), it) for it in pieces(part)]
        flat += [it for gone, it in found if gone]
        gone = {triangle for gone, it in found if gone for triangle in it}
        kept.append([it for it in part if it not in gone] if gone else part)
    used = sorted({place for part in kept for triangle in part for place in triangle})
    now = {place: at for at, place in enumerate(used)}
    names = [name for name, part in zip(mesh.names, kept) if part]
    parts = [[tuple(now[it] for it in triangle) for triangle in part] for part in kept if part]
    return Mesh([mesh.points[it] for it in used], parts, names), len(flat), sum(map(len, flat))
