"""Makes rings from elsewhere such as the program takes: in integers, simple, and apart from each other.

Rings that are so already need the standard library alone; where some cross or touch, python3-shapely makes new ones
that bound the same region by the even-odd rule.
"""
import math
from dataclasses import dataclass

from fku import even_odd
from fku.joining import is_inside
from fku.meetings import cell_for, is_back, meetings
from fku.section_text import MOST_CONTOUR_VERTICES
from fku.thinning import Ring, thinned
from fku.tracing import doubled_area
from fku.trouble import Trouble

REACHES = (0, 1, 2, 4, 8, 16, 32)  # how far from a point where rings touch they are cut, in units; first not at all

CLOSING, REPEATS, BACK, TWICE, KEYHOLE = "closing", "repeats", "back", "twice", "keyhole"
CROSSING, CUT, LOST, SMALL, THINNED = "crossing", "cut", "lost", "small", "thinned"
GONE = (TWICE, LOST, SMALL)  # the kinds of notes of a ring that is not among the results


@dataclass(frozen=True)
class Note:
    """What was changed of a ring: its index among the rings given, from 0; one of the kinds above; and plain words."""

    ring: int
    kind: str
    text: str

    def __str__(self):
        return f"ring {self.ring}: {self.text}"


@dataclass
class Part:
    """A ring of integers, and the indices of the rings given that it comes from."""

    points: Ring
    sources: list[int]


def whole(ring, number, unit, origin) -> Ring:
    """Gives the points of a ring in whole units, rounded."""
    points = ring.tolist() if hasattr(ring, "tolist") else ring
    try:
        x0, y0 = origin
        return [(math.floor((x - x0) / unit + 0.5), math.floor((y - y0) / unit + 0.5)) for x, y in points]
    except (ValueError, OverflowError, TypeError):
        raise Trouble(f"ring {number}: each point must be two finite numbers") from None


def without_repeats(points: Ring) -> Ring:
    """Gives the points that are not the same as the one before them, the last one being before the first."""
    return [it for at, it in enumerate(points) if len(points) > 1 and it != points[at - 1]]


def without_ways_back(points: Ring) -> Ring:
    """Gives a ring without repeats, and without the tips of spikes, where it runs back over the edge on which it came.

    Nothing is left of a ring that encloses nothing else.
    """
    kept = []
    for point in points:
        while len(kept) > 1 and (kept[-1] == point or is_back(kept[-2], kept[-1], point)):
            kept.pop()
        kept += [point] if kept[-1:] != [point] else []
    while len(kept) > 2:
        if kept[-1] == kept[0] or is_back(kept[-2], kept[-1], kept[0]):
            kept.pop()
        elif is_back(kept[-1], kept[0], kept[1]):
            kept.pop(0)
        else:
            return kept
    return []


def least_form(points: Ring) -> tuple:
    """Gives the same for all ways to write a ring down: any point may be first, in either direction."""
    start = points.index(min(points))
    turned = points[start:] + points[:start]
    return min(tuple(turned), tuple(turned[:1] + turned[:0:-1]))


class Cleaner:
    """Cleans the rings of one slice of one object, and keeps notes of what it changes."""

    def __init__(self, unit, origin):
        self.unit, self.origin = unit, origin
        self.notes = []

    def note(self, ring, kind, text):
        """Keeps a note."""
        self.notes.append(Note(ring, kind, text))

    def area(self, doubled) -> str:
        """Gives the words for an area in the unit of length of the rings given, from its double in squared units."""
        return f"{abs(doubled) / 2 * self.unit * self.unit:g}"

    def part(self, ring, number):
        """Gives the part of one ring, or None where it encloses nothing."""
        given = whole(ring, number, self.unit, self.origin)
        points = given[:-1] if len(given) > 1 and given[0] == given[-1] else given
        if len(points) < len(given):
            self.note(number, CLOSING, "the last point was the first one again, and went")
        single = without_repeats(points)
        if len(single) < len(points):
            self.note(number, REPEATS, f"left out {len(points) - len(single)} points that repeat the one before them")
        kept = without_ways_back(single)
        if not kept:
            self.note(number, LOST, f"left out: its {len(given)} points have no area in units of {self.unit:g}")
            return None
        if len(kept) < len(single):
            self.note(number, BACK, f"left out {len(single) - len(kept)} points where it runs back over its own edge")
        return Part(kept, [number])

    def parts(self, rings) -> list[Part]:
        """Gives the parts of the rings, each once."""
        parts, seen = [], {}
        for number, ring in enumerate(rings):
            part = self.part(ring, number)
            form = part and least_form(part.points)
            if form in seen:
                self.note(number, TWICE, f"left out: the same as ring {seen[form]}")
            elif part:
                seen[form] = number
                parts.append(part)
        return parts

    def apart(self, parts: list[Part]) -> list[Part]:
        """Gives parts that are simple and apart, with the same region by the even-odd rule as far as can be."""
        for reach in REACHES:
            found = meetings([it.points for it in parts])
            if not found:
                return parts
            parts = self.renewed(parts, found, reach)
        return self.left(parts)

    def renewed(self, parts, found, reach):
        """Gives parts among which those that meet are made anew, cut up to a reach where they met."""
        met = {}
        for pair in found:
            met.setdefault(pair[0][0], []).append(tuple(edge_of(parts, it) for it in pair))
        result = []
        for group in groups(len(parts), found):
            olds, pairs = [parts[it] for it in group], [pair for it in group for pair in met.get(it, [])]
            result += self.anew(olds, pairs, reach) if pairs else olds
        return sorted(result, key=lambda it: it.sources)

    def anew(self, parts, met, reach):
        """Gives what some parts become that hang together, and keeps notes of it."""
        points, area = even_odd.renewed([it.points for it in parts], met, reach)
        points = [it for it in map(without_ways_back, points) if it]
        sources = sorted({number for it in parts for number in it.sources})
        before = abs(doubled_area(parts[0].points)) / 2
        if not reach and len(parts) == 1 and len(points) > 1 and math.isclose(before, area, rel_tol=1e-9):
            text = f"runs along itself, as keyholes do: {len(points)} rings of the same area now"
            self.note(sources[0], KEYHOLE, text)
        else:
            self.tell_anew(sources, reach, f"{len(points)} rings of area {self.area(2 * area)} are left")
        return [Part(it, sources) for it in points]

    def tell_anew(self, sources, reach, left):
        """Keeps a note for each ring of those that were made anew together."""
        what = f"cut by {reach} units where rings still touch" if reach else "made anew by the even-odd rule"
        for number in sources:
            others = [str(it) for it in sources if it != number]
            more = " and others" if len(others) > 4 else ""
            meets = f"meets ring {', '.join(others[:4])}{more}" if others else "crosses or touches itself"
            self.note(number, CUT if reach else CROSSING, f"{meets}: {what}, {left}")

    def left(self, parts):
        """Gives parts that are simple and apart, where others cannot be made so: the least that meet go, with all in
        them.
        """
        while found := meetings([it.points for it in parts]):
            meet = {ring for pair in found for ring, _ in pair}
            least = min((parts[it] for it in meet), key=lambda it: abs(doubled_area(it.points)))
            gone = [it for it in parts if it is least or is_inside(it.points[0], least.points)]
            for it in gone:
                self.note(it.sources[0], LOST, f"left out {len(it.points)} points that still cross others")
            parts = [it for it in parts if not any(it is other for other in gone)]
        return parts

    def large(self, parts, smallest):
        """Gives the parts of an area that is not too small."""
        kept = []
        for it in parts:
            doubled = abs(doubled_area(it.points))
            if doubled / 2 * self.unit * self.unit >= smallest:
                kept.append(it)
            else:
                self.note(it.sources[0], SMALL, f"left out: its area is {self.area(doubled)}")
        return kept

    def thin(self, parts, tolerance):
        """Gives the points of the parts, thinned."""
        rings = [it.points for it in parts]
        if not rings or not tolerance and max(map(len, rings)) <= MOST_CONTOUR_VERTICES:
            return rings
        least = 2 * tolerance / (self.unit * self.unit)
        kept = thinned(rings, least, MOST_CONTOUR_VERTICES, cell_for(rings))
        for it, before, after in zip(parts, rings, kept):
            if len(after) < len(before):
                self.note(it.sources[0], THINNED, f"{len(before) - len(after)} of {len(before)} points left out")
        return kept


def edge_of(parts, edge):
    """Gives the two points of an edge."""
    points = parts[edge[0]].points
    return points[edge[1]], points[(edge[1] + 1) % len(points)]


def groups(count: int, found) -> list[list[int]]:
    """Gives lists of the numbers of rings that hang together by the pairs of edges that meet."""
    group_of = {it: [it] for it in range(count)}
    for (one, _), (other, _) in found:
        if group_of[one] is not group_of[other]:
            group_of[one] += group_of[other]
            for it in group_of[other]:
                group_of[it] = group_of[one]
    return [sorted(it) for it in {id(it): it for it in group_of.values()}.values()]


def clean(rings, unit, origin=(0.0, 0.0), smallest=0.0, thinning=0.0):
    """Gives the rings of one slice of one object in whole units, and notes of all that was changed.

    `rings` are arrays or lists n x 2 of points (x, y); each is closed, whether or not it repeats its first point. Whole
    unit k along x stands for the coordinate origin[0] + k * unit. Rings of less area than `smallest` are left out, and
    so are points whose triangle with their neighbours has less area than `thinning`, both in the square of the rings'
    unit of length, and more points where a ring has more than the program takes. By the even-odd rule a ring in a ring
    is a hole, and one in a hole an island: that stays so, also for what a keyhole or a bow tie encloses.

    The result is (list of lists of whole points, list of `Note`). Each ring is simple and shares no point with another;
    rings that are inside an even number of others run counterclockwise, others clockwise. Trouble says which ring has
    a point that is not two finite numbers.
    """
    if not unit > 0:
        raise Trouble(f"the unit must be above 0, and is {unit:g}")
    cleaner = Cleaner(unit, origin)
    parts = cleaner.large(cleaner.apart(cleaner.parts(rings)), smallest)
    return even_odd.turned(cleaner.thin(parts, thinning)), cleaner.notes
