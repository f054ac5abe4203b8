"""Outlines that are joined to nothing, neither below nor above: of each, `reconstruct` makes two caps that lie on one
another, a flat flake without volume.

Objects are judged one by one. An outline has a place in its object: the number of its section and its number in that
section, both from 0. The standard library is enough.
"""
from fku.joining import box, is_inside, meeting, overlap
from fku.section_text import Section

Place = tuple[int, int]


def boxes(section: Section) -> list:
    """Gives the boxes of a section's outlines."""
    return [box(points) for _, points in section.contours]


def around(section: Section) -> list[Place]:
    """Gives the numbers (i, j) of all outlines of a section where outline i lies around outline j."""
    rings, found = [points for _, points in section.contours], boxes(section)
    return [(i, j) for i, j in meeting(found, found) if i != j and is_inside(rings[j][0], rings[i])]


def are_holes(section: Section) -> list[bool]:
    """Gives for each outline whether it is a hole: whether it lies inside an odd number of the others."""
    holes = [False] * len(section.contours)
    for _, inner in around(section):
        holes[inner] = not holes[inner]
    return holes


def joined_in_gap(lower: Section, upper: Section, kinds, needed) -> list[tuple[int, int]]:
    """Gives pairs of outlines of neighbouring sections that overlap, both holes or both none: as many as show for each
    of the numbers `needed`, two sets, whether it is in such a pair. `kinds` says for both sections which are holes.
    """
    wanted, pairs = [set(it) for it in needed], []
    for i, j in meeting(boxes(lower), boxes(upper)):
        if kinds[0][i] == kinds[1][j] and (i in wanted[0] or j in wanted[1]):
            if overlap(lower.contours[i][1], upper.contours[j][1]):
                pairs.append((i, j))
                wanted[0].discard(i)
                wanted[1].discard(j)
    return pairs


def find(sections: list[Section], links: list[tuple[str, str]] | None = None) -> list[Place]:
    """Gives the places of an object's outlines that are joined to nothing, in file order.

    `sections` are all sections of one object, from below to above, with whole points; empty ones count as neighbours.
    Without `links`, outlines are joined by their overlap (`PAIR overlap`); else `links` has the pairs of names that
    `LINK` lines of the object have (`PAIR links`). Outlines of a section must not cross.
    """
    places = [(at, number) for at, it in enumerate(sections) for number in range(len(it.contours))]
    if links is not None:
        named = {name for link in links for name in link}
        return [(at, number) for at, number in places if sections[at].contours[number][0] not in named]
    left = set(places)
    kinds = [are_holes(it) for it in sections]
    for at in range(len(sections) - 1):
        needed = [{number for number in range(len(kinds[k])) if (k, number) in left} for k in (at, at + 1)]
        for i, j in joined_in_gap(sections[at], sections[at + 1], kinds[at : at + 2], needed):
            left -= {(at, i), (at + 1, j)}
    return [it for it in places if it in left]


def droppable(sections: list[Section], places: list[Place]) -> list[Place]:
    """Gives those of some places whose outlines can go without a change of the others.

    An outline stays that lies around one that is not among the places: without it, that one would turn from a hole into
    an outer outline, or back. It happens where a hole that is joined to nothing has an island that is joined.
    """
    gone, held = set(places), set()
    for at in {at for at, _ in places}:
        held |= {(at, outer) for outer, inner in around(sections[at]) if (at, inner) not in gone}
    return [it for it in places if it not in held]


def without(sections: list[Section], places: list[Place]) -> list[Section]:
    """Gives the sections without the outlines at some places. A section that has none left stays, empty, since without
    it the sections beside it would become neighbours.
    """
    gone = set(places)
    return [
        Section(it.height, [contour for number, contour in enumerate(it.contours) if (at, number) not in gone])
        for at, it in enumerate(sections)
    ]
