"""The place of a section text in its source's space, as comments of the text.

A line `# space: affine` has twelve numbers, the rows of a 3 x 4 matrix: it takes (x, y, z, 1), in the text's whole
units, to the source's coordinates. A line `# space: length` has the name of these coordinates' unit of length, such as
mm, and a line `# space: world` what their axes are: RAS (to the right, front and top of a patient, as NIfTI counts) or
LPS (to the left, back and top, as DICOM counts). Either of the last two may be missing. The standard library is enough.
"""
import re
from dataclasses import dataclass

WORLDS = ("RAS", "LPS")
NUMBER = r"[-+]?(?:\d+\.?\d*|\.\d+)(?:[eE][-+]?\d+)?"
LINE = re.compile(r"#\s*space:\s*(affine|length|world)\s+(.*?)\s*$")


@dataclass(frozen=True)
class Space:
    """Twelve numbers, the rows of a 3 x 4 matrix from whole units to source coordinates; the name of the source's unit
    of length, and of its axes, each empty where it is not known.
    """

    affine: tuple[float, ...]
    length: str = ""
    world: str = ""

    def place(self, point: tuple[float, float, float]) -> tuple[float, float, float]:
        """Gives the source coordinates of a point in whole units."""
        x, y, z = point
        rows = (self.affine[at : at + 4] for at in (0, 4, 8))
        return tuple(a * x + b * y + c * z + d for a, b, c, d in rows)

    def turns_over(self) -> bool:
        """Whether the matrix makes a mirror image, so that triangles have to be turned over to face outward."""
        a, b, c, _, d, e, f, _, g, h, i, _ = self.affine
        return a * (e * i - f * h) - b * (d * i - f * g) + c * (d * h - e * g) < 0

    def factor(self) -> float:
        """Gives the length of one whole unit along x, in the source's unit of length."""
        return sum(it * it for it in self.affine[0::4][:3]) ** 0.5

    def seen_as(self, world: str) -> "Space":
        """Gives the same place with axes RAS or LPS: x and y change their sign where the axes differ."""
        if world == self.world:
            return self
        if not {world, self.world} <= set(WORLDS):
            raise ValueError(f"the axes are {self.world or 'not known'}, so they cannot be turned to {world}")
        return Space((*(-it for it in self.affine[:8]), *self.affine[8:]), self.length, world)


def notes(space: Space) -> list[str]:
    """Gives the comments that tell the place, without the sign # at their front."""
    told = ["space: affine " + " ".join(f"{it:.17g}" for it in space.affine)]
    told += [f"space: length {space.length}"] if space.length else []
    return told + ([f"space: world {space.world}"] if space.world else [])


def read(text: bytes) -> Space | None:
    """Gives the place that the comments of a section text tell, or None where they tell none.

    A ValueError says which comment cannot be used.
    """
    found = {}
    for line in text.decode("ascii", "replace").split("\n"):
        match = LINE.match(line.strip())
        if match:
            found[match[1]] = match[2]
    if "affine" not in found:
        return None
    words = found["affine"].split()
    if len(words) != 12 or not all(re.fullmatch(NUMBER, it) for it in words):
        raise ValueError("the comment `space: affine` must have twelve numbers")
    if found.get("world", "RAS") not in WORLDS:
        raise ValueError("the comment `space: world` must say RAS or LPS")
    return Space(tuple(map(float, words)), found.get("length", ""), found.get("world", ""))
