"""The region of rings by the even-odd rule: their direction, and with shapely new rings where they cross."""
import math

from fku.joining import box, edges, is_inside
from fku.thinning import Point, Ring
from fku.tracing import doubled_area
from fku.trouble import wanted

SQUARE, MITRE = 3, 2  # shapely's numbers for ends and corners of what lies near a line


def turned(rings: list[Ring]) -> list[Ring]:
    """Gives simple rings that share no point, counterclockwise where they lie in an even number of others, else
    clockwise.
    """
    boxes = [box(it) for it in rings]
    result = []
    for number, ring in enumerate(rings):
        x, y = ring[0]
        depth = 0
        for other, (x0, x1, y0, y1) in enumerate(boxes):
            depth += other != number and x0 < x < x1 and y0 < y < y1 and is_inside((x, y), rings[other])
        result.append(ring if (doubled_area(ring) > 0) == (depth % 2 == 0) else ring[::-1])
    return result


def are_odd(numpy, places, rings: list[Ring]) -> list[bool]:
    """Whether points that lie on no edge are inside an odd number of windings of rings, which may cross."""
    ax, ay, bx, by = numpy.array([(*a, *b) for ring in rings for a, b in edges(ring) if a[1] != b[1]], float).T
    slopes, odd = (bx - ax) / (by - ay), []
    for x, y in places:
        passes = ((ay > y) != (by > y)) & (x < ax + (y - ay) * slopes)
        odd.append(bool(passes.sum() % 2))
    return odd


def region(shapely, rings: list[Ring]):
    """Gives the region of rings that may cross, as a shape of shapely."""
    numpy = wanted("numpy", "python3-numpy", "a ring that crosses itself")
    lines = [shapely.geometry.LineString(ring + ring[:1]) for ring in rings]
    faces = list(shapely.ops.polygonize(shapely.ops.unary_union(lines)))
    places = [(it.x, it.y) for it in (face.representative_point() for face in faces)]
    return shapely.ops.unary_union([face for face, odd in zip(faces, are_odd(numpy, places, rings)) if odd])


def cuts(shapely, crossed, reach: float):
    """Gives the places near to where pairs of edges meet."""
    lines = [[shapely.geometry.LineString(edge) for edge in pair] for pair in crossed]
    shared = [one.intersection(other) for one, other in lines]
    return shapely.ops.unary_union([it.buffer(reach, cap_style=SQUARE, join_style=MITRE) for it in shared])


def pieces(shape) -> list[Ring]:
    """Gives the rings of a shape of shapely, rounded to integers."""
    polygons = [it for it in getattr(shape, "geoms", [shape]) if it.geom_type == "Polygon" and not it.is_empty]
    rings = [ring for it in polygons for ring in (it.exterior, *it.interiors)]
    return [[(math.floor(x + 0.5), math.floor(y + 0.5)) for x, y in list(it.coords)[:-1]] for it in rings]


def renewed(rings: list[Ring], crossed: list[tuple[tuple[Point, Point], ...]], reach: int) -> tuple[list[Ring], float]:
    """Gives rings of integers that bound the region of rings, which may cross, and the region's area.

    Where `reach` is above 0, the region is cut so far from each place where a pair of `crossed` edges meets. Rounding
    may make new rings meet again.
    """
    wanted("shapely.geometry", "python3-shapely", "a ring that crosses or touches itself or another one")
    wanted("shapely.ops", "python3-shapely", "a ring that crosses or touches itself or another one")
    shapely = wanted("shapely", "python3-shapely", "a ring that crosses or touches itself or another one")
    shape = region(shapely, rings)
    if reach:
        shape = shape.difference(cuts(shapely, crossed, reach))
    return pieces(shape), shape.area
