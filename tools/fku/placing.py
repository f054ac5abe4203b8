"""Puts a surface into the space of its source, with the names of its objects: both stand in the comments of the section
text that it was made from. The standard library is enough.
"""
import math
from decimal import Decimal

from fku import names, section_text, space
from fku.byu import Mesh
from fku.trouble import Trouble, read_bytes

FINER = 6  # decimal places of the shortest step along an axis that are written


def turned_over(mesh: Mesh) -> Mesh:
    """Gives the mesh whose triangles run the other way round."""
    return Mesh(mesh.points, [[(a, c, b) for a, b, c in part] for part in mesh.parts], mesh.names)


def decimals(place: space.Space) -> int:
    """Gives the number of decimals for a place to a millionth of the shortest step along an axis."""
    steps = [math.hypot(*place.affine[k:11:4]) for k in range(3)]
    if not all(math.isfinite(it) and it > 0 for it in steps):
        raise Trouble("the comment `space: affine` maps the surface to a plane")
    return FINER - math.floor(math.log10(min(steps)))


def placed(mesh: Mesh, place: space.Space) -> Mesh:
    """Gives the mesh in the source's space, its points as decimal numbers, rounded to a millionth of a whole unit's
    length; its triangles face outward there too.
    """
    step = Decimal(1).scaleb(-decimals(place))
    rows = [[Decimal(repr(it)) for it in place.affine[at : at + 4]] for at in (0, 4, 8)]
    used = [[(axis, it) for axis, it in enumerate(row[:3]) if it] for row in rows]
    points = []
    for point in mesh.points:
        whole = [Decimal(it) for it in point]
        sums = [sum((it * whole[axis] for axis, it in along), row[3]) for along, row in zip(used, rows)]
        points.append(tuple(it.quantize(step) for it in sums))
    there = Mesh(points, mesh.parts, mesh.names)
    return turned_over(there) if place.turns_over() else there


class Source:
    """What a section text says of the surface that was made from it: the names of its objects, and its place, if any.
    """

    def __init__(self, path: str):
        data = read_bytes(path)
        self.path = path
        self.objects = [it.name for it in section_text.read(data, path)]
        texts = names.read(data)
        self.names = [texts.get(it, it) for it in self.objects]
        try:
            self.space = space.read(data)
        except ValueError as it:
            raise Trouble(f"{path}: {it}") from None

    def named(self, mesh: Mesh) -> Mesh:
        """Gives the mesh with the names of the objects, part by part."""
        if len(self.objects) != len(mesh.parts):
            raise Trouble(
                f"{self.path}: has {len(self.objects)} objects, and the surface {len(mesh.parts)} parts: is it the "
                "text that the surface was made from?"
            )
        return Mesh(mesh.points, mesh.parts, self.names if any(self.names) else None)

    def place(self, world: str | None) -> space.Space:
        """Gives the place in the source's space, or as another world counts."""
        if self.space is None:
            raise Trouble(f"{self.path}: its comments do not say where it lies: give --factor instead")
        try:
            return self.space.seen_as(world) if world else self.space
        except ValueError as it:
            raise Trouble(f"{self.path}: {it}") from None
