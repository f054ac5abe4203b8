"""From the program's refusal to the rings that a caller gave: an FkuError with their keys, heights and places."""
from fku import faults, joining, program
from fku.faults import FkuError, Refusal
from fku.section_text import LIMITS
from fku.stacks import Grid, Outlines, Ring, Text

COSTS = 'the cost is "span", "area", or ("mix", a, b) with two weights from 0 to 1000, not both 0'


def edge(grid: Grid, ring: Ring, number: int) -> list[tuple[float, float]]:
    """Gives the two ends of an edge of a ring, in the caller's unit."""
    ends = ring.points[[number, (number + 1) % len(ring.points)]]
    return [tuple(it) for it in grid.back(ends).tolist()]


def edge_text(ends) -> str:
    """Gives the words for an edge."""
    return " to ".join(f"({x:.10g}, {y:.10g})" for x, y in ends)


def object_of(refusal: Refusal, outlines: Outlines, cost: str):
    """Gives the first object that has a refusal by itself; a refusal that names a section does not say of which."""
    for stack in outlines.stacks:
        gone = [ring.key for other in outlines.stacks if other is not stack for it in other.slices for ring in it.rings]
        words = ["ringcaps"] if refusal.number == 26 else program.FAULTS
        _, out = program.run(words, outlines.without(gone).text(cost).data)
        if out.strip() == refusal.text.encode():
            return stack
    return None


class Fault:
    """What a refusal says of some outlines, piece by piece."""

    def __init__(self, refusal: Refusal, outlines: Outlines, text: Text, cost: str):
        self.refusal, self.outlines, self.text, self.cost = refusal, outlines, text, cost
        self.edges, self.stack, self.slice, self.rings = [], None, None, []

    def error(self) -> FkuError:
        """Gives the error."""
        it = self.refusal
        self.find()
        message = self.message()
        object_name = self.stack.name if self.stack else ""
        z = self.slice.z if self.slice else self.asked_height()
        hint = COSTS if it.number in (1, 2) and it.line == 2 else it.remedy()
        keys = [ring.key for ring in self.rings]
        return FkuError(
            f"{self.where()}{message} ({it.text})", it.kind, hint, it.text, it.number, object_name, z, keys, self.edges
        )

    def find(self):
        """Finds the object, the slice and the rings at fault."""
        it = self.refusal
        if it.line:
            self.stack, self.slice, ring = self.text.place(it.line)
            self.rings = [ring] if ring else []
        elif it.names:
            by_name = {ring.name: (stack, section, ring) for stack, section in self.outlines.slices()
                       for ring in section.rings}  # fmt: skip
            found = [by_name[name] for name in it.names if name in by_name]
            self.rings = [ring for _, _, ring in found]
            self.stack, self.slice, _ = found[0] if found else (None, None, None)
        elif it.number in (11, 26):
            self.stack = object_of(it, self.outlines, self.cost)
            self.slice = self.stack.slices[int(it.words[1]) - 1] if self.stack else None

    def asked_height(self) -> float | None:
        """Gives the height that was asked for and is refused, in the caller's unit."""
        grid = self.outlines.grid
        return float(grid.back(int(self.refusal.words[0]) + grid.shift[2])) if self.refusal.number in (17, 18) else None

    def where(self) -> str:
        """Gives the words for the place of the fault."""
        if len(self.rings) > 1:
            return " and ".join(str(ring.key) for ring in self.rings) + ": "
        if self.rings:
            return f"{self.rings[0].key}: "
        of_object = f"object {self.stack.name!r}" if self.stack and self.stack.name else ""
        at_height = f"the slice at z = {self.slice.z:g}" if self.slice else ""
        return ": ".join([*filter(None, (of_object, at_height)), ""])

    def message(self) -> str:
        """Gives the words for the fault, with the edges that meet."""
        it = self.refusal
        if it.limit in LIMITS:
            return f"more {it.limit.replace('_', ' ')} than the limit of {LIMITS[it.limit]}"
        if it.number == 8 and self.rings:
            self.edges = [edge(self.outlines.grid, self.rings[0], int(word)) for word in it.words[1:3]]
        elif it.number == 9 and len(self.rings) == 2:
            self.edges = crossing_edges(self.outlines.grid, *self.rings)
        met = f": the edge from {' meets that from '.join(map(edge_text, self.edges))}" if self.edges else ""
        return f"{it.meaning()}{met}"


def crossing_edges(grid: Grid, one: Ring, other: Ring) -> list:
    """Gives the first edge of a ring that meets one of another, and that one."""
    rings = [list(map(tuple, ring.points.tolist())) for ring in (one, other)]
    pair = min(joining.meeting_edges(*rings), default=())
    return [edge(grid, ring, number) for ring, number in zip((one, other), pair)]


def refused(line: bytes, outlines: Outlines, text: Text, cost: str) -> FkuError:
    """Gives the error for a refusal that the program printed for the text of some outlines."""
    return Fault(faults.parse(line), outlines, text, cost).error()


def started(words: list[str], text: bytes) -> tuple[int, bytes]:
    """Runs the program, and gives its status, 0 or `program.REFUSED`, and what it wrote; FkuError is raised where it
    cannot answer.
    """
    try:
        status, out = program.run(words, text)
    except program.NoProgram as it:
        raise FkuError(str(it), "NO PROGRAM") from None
    except program.Ended as it:
        raise FkuError(str(it), "ENDED") from None
    if status == program.USAGE:
        raise FkuError(f"the program does not know the command line {' '.join(words)}", "INPUT", "see docs/formats.md")
    return status, out
