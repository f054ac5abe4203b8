"""Which outlines `PAIR overlap` joins, as far as it is needed to keep the limit of a composite. Standard library.

The outlines are those of `tracing`: outer ones run counterclockwise, holes clockwise.
"""
from fku.section_text import Section
from fku.thinning import Point, Ring, side
from fku.trouble import Trouble

MOST = 4096  # vertices of a composite


def box(points):
    """Gives the least and the greatest x and y."""
    xs, ys = [x for x, _ in points], [y for _, y in points]
    return min(xs), max(xs), min(ys), max(ys)


def boxes_meet(a, b):
    """Whether two boxes share a point."""
    return a[0] <= b[1] and b[0] <= a[1] and a[2] <= b[3] and b[2] <= a[3]


def meeting(low: list, high: list):
    """Gives the places (i, j) of all boxes of two lists that share a point: box i of the first, box j of the second."""
    lists, open_boxes = (low, high), ([], [])
    order = sorted((box[0], which, at) for which, boxes in enumerate(lists) for at, box in enumerate(boxes))
    for left, which, at in order:
        box, others = lists[which][at], lists[1 - which]
        still = open_boxes[1 - which]
        still[:] = [it for it in still if others[it][1] >= left]
        for other in still:
            if box[2] <= others[other][3] and others[other][2] <= box[3]:
                yield (other, at) if which else (at, other)
        open_boxes[which].append(at)


def edges(points):
    """Gives the edges of a closed outline."""
    return list(zip(points, points[1:] + points[:1]))


def sign(number):
    """Gives -1, 0 or 1."""
    return (number > 0) - (number < 0)


def segments_meet(p: Point, q: Point, r: Point, s: Point) -> bool:
    """Whether the closed segments p q and r s share a point."""
    if not boxes_meet(box((p, q)), box((r, s))):
        return False
    return sign(side(p, q, r)) * sign(side(p, q, s)) <= 0 and sign(side(r, s, p)) * sign(side(r, s, q)) <= 0


def is_inside(point: Point, points: Ring) -> bool:
    """Whether a point that lies on no edge lies inside an outline."""
    inside = False
    for a, b in edges(points):
        if (a[1] > point[1]) != (b[1] > point[1]):
            low, high = (a, b) if a[1] < b[1] else (b, a)
            inside ^= side(low, high, point) > 0
    return inside


def edge_boxes(points: Ring) -> list:
    """Gives the boxes of the edges of an outline."""
    return [
        (ax if ax < bx else bx, bx if ax < bx else ax, ay if ay < by else by, by if ay < by else ay)
        for (ax, ay), (bx, by) in edges(points)
    ]


def meeting_edges(a: Ring, b: Ring):
    """Gives the numbers (i, j) of all edges of two outlines that share a point, edge i of the first and j of the
    second.

    Edges are counted from 0; edge i leads from point i to the next one.
    """
    of_a, of_b = edges(a), edges(b)
    pairs = meeting(edge_boxes(a), edge_boxes(b))
    return ((i, j) for i, j in pairs if segments_meet(*of_a[i], *of_b[j]))


def some(points: Ring) -> Ring:
    """Gives a few points of an outline, the first among them: where one of them is inside another outline, the two
    overlap.
    """
    return points[:: len(points) // 4 + 1]


def overlap(a: Ring, b: Ring) -> bool:
    """Whether two outlines overlap, seen from above."""
    if not boxes_meet(box(a), box(b)):
        return False
    if any(is_inside(it, b) for it in some(a)) or any(is_inside(it, a) for it in some(b)):
        return True
    return any(True for _ in meeting_edges(a, b))


def is_hole(points: Ring) -> bool:
    """Whether an outline runs clockwise."""
    return sum(a[0] * b[1] - b[0] * a[1] for a, b in edges(points)) < 0


def composite_size(outlines: list[Ring]) -> int:
    """Gives how many vertices the composite of some outlines has: each bridge is passed twice."""
    return sum(map(len, outlines)) + 2 * (len(outlines) - 1)


def components(below: list[Ring], above: list[Ring]) -> list[tuple[list[Ring], list[Ring]]]:
    """Gives the outlines below and above of each component that has some on both sides."""
    parts = [([it], []) for it in below]
    for high in above:
        met = [part for part in parts if any(overlap(low, high) for low in part[0])]
        rest = [part for part in parts if not any(part is it for it in met)]
        merged = ([it for part in met for it in part[0]], [it for part in met for it in part[1]] + [high])
        parts = rest + [merged]
    return [part for part in parts if part[0] and part[1]]


def check(sections: list[Section]) -> None:
    """Refuses sections where the outlines of a component have more vertices than a composite may have."""
    for lower, upper in zip(sections, sections[1:]):
        for hole in (False, True):
            below = [points for _, points in lower.contours if is_hole(points) == hole]
            above = [points for _, points in upper.contours if is_hole(points) == hole]
            if max(composite_size(below), composite_size(above)) > MOST:
                see_components(lower, upper, components(below, above))


def see_components(lower, upper, parts):
    """Refuses a component that is too large on either side."""
    for part in parts:
        for section, outlines in zip((lower, upper), part):
            size = composite_size(outlines)
            if size > MOST:
                raise Trouble(
                    f"points of the {len(outlines)} outlines at height {section.height} that belong together, with "
                    f"their bridges: {size}, and the limit is {MOST}: raise --tolerance, --smallest or --smooth"
                )
