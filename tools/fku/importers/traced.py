"""What an importer gives: outlines by object and height, with what was passed over and what cannot be used."""
from dataclasses import dataclass, field

from fku.trouble import Trouble

Place = tuple[float, float]

FLAT = 1e-3  # how far points of one outline may be apart in height, as a part of the slice spacing or of a pixel


@dataclass
class Traced:
    """Outlines that were traced elsewhere, in the source's unit of length and coordinates.

    `objects` has for each name, which is empty where the source has none, and each height the rings: lists of points
    (x, y). `length` is the name of the unit of length, `world` that of the axes (RAS or LPS); both are empty where they
    are not known. `spacing` is the slice spacing, where the source or an option gives it. `notes` say what was
    passed over. `faults` say for names of objects why these cannot be used as they are.
    """

    objects: dict[str, dict[float, list[list[Place]]]] = field(default_factory=dict)
    length: str = ""
    world: str = ""
    spacing: float | None = None
    notes: list[str] = field(default_factory=list)
    faults: dict[str, list[str]] = field(default_factory=dict)

    def add(self, name: str, height: float, points: list[Place]) -> None:
        """Adds a ring."""
        self.objects.setdefault(name, {}).setdefault(height, []).append(points)

    def add_line(self, name: str, height: float, points: list[Place], what: str, close: bool) -> None:
        """Adds an open line as a ring where lines are to be closed; else that is a fault of its object."""
        if close:
            self.add(name, height, points)
            self.notes.append(f"{what} is an open line, and was closed")
        else:
            self.fault(name, f"{what} is an open line: --close joins its last point to its first")

    def fault(self, name: str, text: str) -> None:
        """Adds a reason why an object cannot be used."""
        self.objects.setdefault(name, {})
        self.faults.setdefault(name, []).append(text)


def height_of(heights: list[float], tolerance: float) -> float | None:
    """Gives the height of points that lie in one plane, or None where they do not."""
    return heights[0] if max(heights) - min(heights) <= tolerance else None


def above_0(value: float | None, option: str, why: str) -> float:
    """Gives the value of an option that this source needs."""
    if value is None:
        raise Trouble(f"give --{option}: {why}")
    return value
